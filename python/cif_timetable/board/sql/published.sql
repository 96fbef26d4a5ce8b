-- The published schedules of a train by the dates on which they decide.
SELECT days.date, published.first_date, published.last_date, published.stp_indicator
FROM published
JOIN days ON days.date BETWEEN published.wins_from AND published.wins_to
    AND substr(published.days_run, days.weekday, 1) > '0'
WHERE published.uid = :uid
ORDER BY days.date;
