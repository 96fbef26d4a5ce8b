SELECT *
FROM changes
WHERE journey = :journey
ORDER BY number;
