-- The calls of a journey, and what they are for riders. `midnights` counts those before the call is left, as in calls.sql.
WITH moments AS (
    SELECT
        number,
        coalesce(arrival_seconds, pass_seconds, departure_seconds) AS reached,
        coalesce(departure_seconds, pass_seconds, arrival_seconds) AS after,
        lag(coalesce(departure_seconds, pass_seconds, arrival_seconds)) OVER (ORDER BY number) AS before
    FROM calls
    WHERE journey = :journey AND coalesce(arrival, pass, departure) IS NOT NULL
),
counted AS (
    SELECT
        number,
        sum(
            (coalesce(reached - before, 0) < -3600) - (coalesce(reached - before, 0) >= 82800)
                + (after - reached < -3600) - (after - reached >= 82800)
        ) OVER (ORDER BY number) AS midnights
    FROM moments
)
SELECT
    locations.station_crs,
    coalesce(locations.name, calls.location) AS name,
    calls.*,
    counted.midnights,
    coalesce(public_calls.get_off, 0) AS get_off,
    coalesce(public_calls.get_on, 0) AS get_on
FROM calls
LEFT JOIN counted ON counted.number = calls.number
LEFT JOIN public_calls ON public_calls.journey = calls.journey AND public_calls.number = calls.number
LEFT JOIN locations ON locations.tiploc = calls.location
WHERE calls.journey = :journey
ORDER BY calls.number;
