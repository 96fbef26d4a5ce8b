-- The rows of the view @BOARD@, which is departures or arrivals, of a station or a TIPLOC on a date, from one moment to another. Departures
-- stand in an index by their time; that of arrivals is quicker to compare in seconds (@TIME@).
SELECT *
FROM @BOARD@
WHERE @PLACE@ = :place AND date = :date AND @TIME@ >= :first_@TIME@ AND @TIME@ < :last_@TIME@
ORDER BY @TIME@
LIMIT :most;
