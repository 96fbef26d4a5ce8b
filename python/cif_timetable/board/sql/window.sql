SELECT first_date, last_date
FROM extract;
