#!/usr/bin/env bash
# An answer stored: its tuples become inserts into a relation with its columns, and two questions say that it is the same.
set -euo pipefail
program=${DEDALE:-./dedale}
folder=$(mktemp -d)
trap 'rm -r "$folder"' EXIT
cat > "$folder/script" << 'end'
relation Land(n text, x, y);
insert Land { n = 'a', x >= 0, x <= 1000, y >= 0, y <= 1000 };
insert Land { n = 'it''s', x >= 1000, x <= 2000, y >= 0, y <= 1000 };
relation Near(n text, x, y);
query (n text, x, y) : Land(n, x, y) and y <= 5 and x >= 900;
end
"$program" < "$folder/script" | sed -n 's/^{ \(.*\) }$/insert Near { \1 };/p' | tee "$folder/near"
cat "$folder/script" "$folder/near" - << 'end' | "$program"
view Asked(n text, x, y) := Land(n, x, y) and y <= 5 and x >= 900;
ask forall n text forall x forall y (Near(n, x, y) implies Asked(n, x, y));
ask forall n text forall x forall y (Asked(n, x, y) implies Near(n, x, y));
end
