#!/usr/bin/env bash
# Countries of South America and Europe, from the polygons of countries.csv: imported with four digits behind the point of a degree, confirmed,
# asked for neighbours and overlaps, and the outline of three of them together written as WKT.
set -euo pipefail
program=${DEDALE:-./dedale}
folder=$(mktemp -d)
trap 'rm -r "$folder"' EXIT
import() { ./dedale_tools import Land name wkt --digits 4 "$@" < examples/data/countries.csv; }

echo 'Is the border of each country exactly the edges of its rings? Two questions for each.'
import --edges Edge --check | "$program" | grep -v '^ok$\|^tuple ' | sort | uniq -c

import > "$folder/map"
# the same pieces once more, without their borders
sed -n '/^relation Land(\|^insert Land /{s/Land/Open/; s/\([<>]\)=/\1/g; p}' "$folder/map" > "$folder/open"
echo 'Questions about them.'
cat "$folder/map" "$folder/open" - << 'end' | "$program" | grep -v '^ok$\|^tuple '
-- How far does the map go? In units of 0.0001 degrees.
box Land;

-- Which countries touch Paraguay? By a view, which is quick.
view Paraguay(x, y) := Land('Paraguay', x, y);
query (n text) : n != 'Paraguay' and exists x exists y (Land(n, x, y) and Paraguay(x, y));

-- Which touch no other one?
query (n text) : exists x exists y (Land(n, x, y)) and not exists m text exists x exists y (m != n and Land(n, x, y) and Land(m, x, y));

-- Do two of them overlap?
ask exists n text exists m text (n != m and exists x exists y (Open(n, x, y) and Open(m, x, y)));
end

echo 'The outline of Belgium, the Netherlands and Luxembourg, in degrees.'
cat "$folder/map" - << 'end' | DEDALE=$program ./dedale_tools export --format wkt
view Benelux(x, y) := Land('Belgium', x, y) or Land('Netherlands', x, y) or Land('Luxembourg', x, y);
query (x, y) : closure(Benelux)(x, y) and not interior(Benelux)(x, y);
end
