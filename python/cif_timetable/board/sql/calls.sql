-- All calls at a station, or at a TIPLOC, on a date by the clock, also those of freight and those that are passes. `time` is that at which
-- the call is left, or reached where the train ends. Midnights are counted as docs/FORMAT.md says of moments: a time that falls by more
-- than an hour is after one.
WITH here AS MATERIALIZED (
    SELECT
        calls.journey,
        calls.number,
        coalesce(calls.departure_seconds, calls.pass_seconds, calls.arrival_seconds) AS seconds,
        public_calls.departure_seconds AS public_seconds,
        -- whether riders are told the call's own time, and it is within three hours of the working one
        public_calls.departure_time = substr(coalesce(nullif(calls.public_departure, '0000'), calls.public_arrival), 1, 2) || ':'
            || substr(coalesce(nullif(calls.public_departure, '0000'), calls.public_arrival), 3) || ':00'
        AND (
            public_calls.departure_seconds - coalesce(calls.departure_seconds, calls.pass_seconds, calls.arrival_seconds) + 97200
        ) % 86400 <= 21600 AS is_near
    FROM calls
    LEFT JOIN public_calls ON public_calls.journey = calls.journey AND public_calls.number = calls.number
    WHERE calls.location IN (SELECT tiploc FROM locations WHERE station_crs = :station_crs UNION SELECT :location)
        AND coalesce(calls.departure, calls.pass, calls.arrival) >= :first_working
        AND coalesce(calls.departure, calls.pass, calls.arrival) < :last_working
),
-- Those that no schedule has on this date or shortly before aren't looked at further.
near AS MATERIALIZED (
    SELECT *
    FROM here
    WHERE EXISTS (
        SELECT 1
        FROM schedules
        WHERE schedules.journey = here.journey AND schedules.first_date <= :date AND schedules.last_date >= date(:date, '-31 days')
    )
),
moments AS (
    SELECT
        near.journey,
        near.number,
        near.seconds,
        coalesce(calls.arrival_seconds, calls.pass_seconds, calls.departure_seconds) AS reached,
        coalesce(calls.departure_seconds, calls.pass_seconds, calls.arrival_seconds) AS after,
        lag(coalesce(calls.departure_seconds, calls.pass_seconds, calls.arrival_seconds)) OVER (
            PARTITION BY near.journey, near.number
            ORDER BY calls.number
        ) AS before
    FROM near
    JOIN calls ON calls.journey = near.journey AND calls.number <= near.number
        AND coalesce(calls.arrival, calls.pass, calls.departure) IS NOT NULL
    WHERE near.is_near IS NOT 1
),
-- Times that riders are told say how many midnights there are; of other calls they are counted from the train's first call on.
counted AS MATERIALIZED (
    SELECT journey, number, seconds, (public_seconds - seconds + 43200) / 86400 AS midnights
    FROM near
    WHERE is_near
    UNION ALL
    SELECT
        journey,
        number,
        seconds,
        sum(
            (coalesce(reached - before, 0) < -3600) - (coalesce(reached - before, 0) >= 82800)
                + (after - reached < -3600) - (after - reached >= 82800)
        ) AS midnights
    FROM moments
    GROUP BY journey, number, seconds
)
SELECT
    locations.station_crs,
    locations.crs,
    coalesce(locations.name, calls.location) AS station,
    :date AS date,
    printf('%02d:%02d:%02d', counted.seconds / 3600, counted.seconds / 60 % 60, counted.seconds % 60) AS time,
    days.date AS train_date,
    schedules.uid,
    schedules.identity,
    schedules.operator,
    schedules.operator_name,
    schedules.category,
    schedules.status,
    schedules.passenger,
    schedules.as_required,
    calls.record,
    calls.arrival,
    calls.departure,
    calls.pass,
    calls.public_arrival,
    calls.public_departure,
    calls.platform,
    calls.path,
    calls.line,
    calls.activities,
    coalesce(public_calls.passenger, 0) AS for_riders,
    schedules.origin,
    coalesce(starts.name, schedules.origin) AS origin_name,
    schedules.destination,
    coalesce(ends.name, schedules.destination) AS destination_name,
    calls.location,
    calls.journey,
    calls.number
FROM counted
JOIN days ON days.date = date(:date, (-counted.midnights) || ' days')
JOIN schedules ON schedules.journey = counted.journey
    AND days.date BETWEEN schedules.first_date AND schedules.last_date
    AND substr(schedules.days_run, days.weekday, 1) > '0'
JOIN calls ON calls.journey = counted.journey AND calls.number = counted.number
LEFT JOIN public_calls ON public_calls.journey = calls.journey AND public_calls.number = calls.number
LEFT JOIN locations ON locations.tiploc = calls.location
LEFT JOIN locations AS starts ON starts.tiploc = schedules.origin
LEFT JOIN locations AS ends ON ends.tiploc = schedules.destination
ORDER BY counted.seconds, schedules.uid, days.date, calls.number;
