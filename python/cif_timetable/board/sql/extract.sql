-- The extract, and what is loaded of it. Numbers of rows without a scan: their keys count from 1.
SELECT
    extract.*,
    coalesce((SELECT max(id) FROM schedules), 0) AS schedules,
    coalesce((SELECT max(id) FROM journeys), 0) AS journeys,
    coalesce((SELECT max(rowid) FROM associations), 0) AS associations,
    (SELECT count(*) FROM stations) AS stations,
    (SELECT count(*) FROM locations) AS locations,
    EXISTS (SELECT 1 FROM published) AS published
FROM extract;
