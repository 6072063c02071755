"""Answers as maps and tables: pieces joined to polygons, areas, and the formats WKT, GeoJSON and CSV."""
