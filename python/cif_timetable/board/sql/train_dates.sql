-- All dates of a train, each with the schedule that it has.
SELECT
    days.date,
    schedules.*,
    coalesce(starts.name, schedules.origin) AS origin_name,
    coalesce(ends.name, schedules.destination) AS destination_name
FROM schedules
JOIN days ON days.date BETWEEN schedules.first_date AND schedules.last_date
    AND substr(schedules.days_run, days.weekday, 1) > '0'
LEFT JOIN locations AS starts ON starts.tiploc = schedules.origin
LEFT JOIN locations AS ends ON ends.tiploc = schedules.destination
WHERE schedules.uid = :uid
ORDER BY days.date;
