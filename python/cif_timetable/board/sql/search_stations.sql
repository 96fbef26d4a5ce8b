-- Stations of which a name has this text, at its start, at the start of a word, or elsewhere; and the one that has it as its code.
SELECT DISTINCT found.station_crs, stations.name
FROM (
    SELECT crs AS station_crs, 0 AS rank FROM stations WHERE crs = :code
    UNION ALL
    SELECT station_crs, 0 FROM locations WHERE crs = :code AND station_crs IS NOT NULL
    UNION ALL
    SELECT
        station_crs,
        CASE
            WHEN search = :text THEN 1
            WHEN search LIKE :escaped || '%' ESCAPE '\' THEN 2
            WHEN search LIKE '% ' || :escaped || '%' ESCAPE '\' THEN 3
            ELSE 4
        END
    FROM station_names
    WHERE :text <> '' AND search LIKE '%' || :escaped || '%' ESCAPE '\'
) AS found
JOIN stations ON stations.crs = found.station_crs
GROUP BY found.station_crs
ORDER BY min(found.rank), stations.name, found.station_crs
LIMIT :most;
