#!/usr/bin/env bash
# A journal: what is typed is kept, and the next start goes on with it.
set -euo pipefail
program=${DEDALE:-./dedale}
journal=$(mktemp)
trap 'rm "$journal"' EXIT
work() { (cat "$journal" && tee -a "$journal") | "$program"; }
work << 'end'
relation Zone(n text, x);
insert Zone { n = 'a', x >= 0, x <= 4 };
insert Zone { n = 'b', x >= 3, x <= 9 };
end
echo 'the next day'
work << 'end'
ask exists x (Zone('a', x) and Zone('b', x));
end
echo 'without the second insert'
sed -i "/n = 'b'/d" "$journal"
"$program" < "$journal"
