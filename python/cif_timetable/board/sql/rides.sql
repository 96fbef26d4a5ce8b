-- The rides from one station to another on a date, and of those in a portion the association by which it is one.
SELECT
    rides.*,
    schedules.operator_name,
    schedules.riders_destination AS destination,
    coalesce(ends.name, schedules.riders_destination) AS destination_name
FROM rides
JOIN schedules ON schedules.uid = rides.uid AND schedules.journey = rides.journey
    AND rides.train_date BETWEEN schedules.first_date AND schedules.last_date
    AND substr(schedules.days_run, (SELECT weekday FROM days WHERE days.date = rides.train_date), 1) > '0'
LEFT JOIN locations AS ends ON ends.tiploc = schedules.riders_destination
WHERE rides.from_crs = :from_crs AND rides.to_crs = :to_crs AND rides.date = :date
ORDER BY rides.departure, rides.arrival_date, rides.arrival, rides.uid, rides.portion;
