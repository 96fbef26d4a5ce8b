-- The station of a CRS code, which may be a minor code of one of its TIPLOCs.
SELECT stations.crs AS station_crs, stations.name
FROM stations
WHERE stations.crs = :place
UNION ALL
SELECT stations.crs, stations.name
FROM locations
JOIN stations ON stations.crs = locations.station_crs
WHERE locations.crs = :place
LIMIT 1;
