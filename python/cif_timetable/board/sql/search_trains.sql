-- Trains by UID or identity: of each whether it runs on the date, and when it does at all.
SELECT
    schedules.uid,
    schedules.identity,
    schedules.operator_name,
    schedules.departure,
    coalesce(starts.name, schedules.origin) AS origin_name,
    coalesce(ends.name, schedules.destination) AS destination_name,
    min(schedules.first_date) AS first_date,
    max(schedules.last_date) AS last_date,
    max(
        :date BETWEEN schedules.first_date AND schedules.last_date
        AND substr(schedules.days_run, (SELECT weekday FROM days WHERE date = :date), 1) > '0'
    ) AS runs
FROM schedules
LEFT JOIN locations AS starts ON starts.tiploc = schedules.origin
LEFT JOIN locations AS ends ON ends.tiploc = schedules.destination
WHERE schedules.uid = :uid OR schedules.identity = :code
GROUP BY schedules.uid
ORDER BY runs DESC, schedules.departure, schedules.uid
LIMIT :most;
