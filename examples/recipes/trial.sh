#!/usr/bin/env bash
# A question on trial: it gets three seconds, and what it is asked of is safe in its file. Status 124 tells that the time was up.
set -uo pipefail
program=${DEDALE:-./dedale}
folder=$(mktemp -d)
trap 'rm -r "$folder"' EXIT
cat > "$folder/data" << 'end'
relation P(x, y);
insert P { x >= 0, y >= 0, 2*x + 3*y <= 36, x - y <= 9 };
end
# sixteen times `forall` and `exists`, one in the other
inside='x1 + y1 > 0' before= behind=
for i in {1..16}; do
  before+="forall x$i (exists y$i (" behind+='))'
  [ "$i" -eq 1 ] || inside+=" and (x$i < y$i or y$i < x$((i - 1)))"
done
echo "ask $before$inside$behind;" > "$folder/question"
cat "$folder/data" "$folder/question" | timeout 3 "$program"
echo "status $?"
