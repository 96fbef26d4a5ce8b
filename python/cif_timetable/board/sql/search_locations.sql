-- TIPLOCs of which the code begins with this text, or the name has it; of the latter those alone that are no part of a station.
SELECT tiploc, station_crs, name
FROM locations
WHERE tiploc = :code
    OR (length(:code) > 3 AND tiploc LIKE :escaped || '%' ESCAPE '\')
    OR (station_crs IS NULL AND :text <> '' AND lower(name) LIKE '%' || :escaped || '%' ESCAPE '\')
ORDER BY tiploc <> :code, name, tiploc
LIMIT :most;
