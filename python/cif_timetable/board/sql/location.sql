SELECT tiploc, crs, station_crs, name
FROM locations
WHERE tiploc = :place;
