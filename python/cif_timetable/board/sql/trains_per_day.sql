SELECT date, operator, passenger, as_required, trains
FROM trains_per_day
ORDER BY date, operator, passenger, as_required;
