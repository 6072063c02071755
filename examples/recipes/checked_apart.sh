#!/usr/bin/env bash
# That two relations have no common point, checked with no code of the program's. Their columns have other names, so they are matched by place.
set -euo pipefail
program=${DEDALE:-./dedale}
cat << 'end' | "$program" | examples/check_certificates 'name text, x, y' 'owner text, east, north'
relation Park(name text, x, y);
relation Plot(owner text, east, north);
insert Park { name = 'old', x >= 0, x <= 4, y >= 0, y <= 4 };
insert Plot { owner = 'old', east + north >= 9 };
insert Plot { owner = 'new', east >= 4 };
show Park;
show Plot;
disjoint Park Plot;
end
