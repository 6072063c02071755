"""Maps and tables in, scripts of Dedale out.

`command` has the words; `table_files`, `geojson` and `wkt` read; `decimals`, `columns` and `pattern` say what a field
stands for; `sweep`, `rings`, `cutting` and `joining` cut polygons into convex pieces by exact whole numbers; `constraints`,
`maps` and `scripts` write."""
