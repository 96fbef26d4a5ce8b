-- The columns that are made of others, for SQLite and PostgreSQL. SQLite makes them as they are read, and gets them once the tables are
-- full, since it makes them for each new row, too.

ALTER TABLE calls ADD COLUMN arrival_seconds integer GENERATED ALWAYS AS (
    CAST(substr(arrival, 1, 2) AS integer) * 3600 + CAST(substr(arrival, 3, 2) AS integer) * 60 + (length(arrival) - 4) * 30
) VIRTUAL;
ALTER TABLE calls ADD COLUMN departure_seconds integer GENERATED ALWAYS AS (
    CAST(substr(departure, 1, 2) AS integer) * 3600 + CAST(substr(departure, 3, 2) AS integer) * 60 + (length(departure) - 4) * 30
) VIRTUAL;
ALTER TABLE calls ADD COLUMN pass_seconds integer GENERATED ALWAYS AS (
    CAST(substr(pass, 1, 2) AS integer) * 3600 + CAST(substr(pass, 3, 2) AS integer) * 60 + (length(pass) - 4) * 30
) VIRTUAL;
ALTER TABLE public_calls ADD COLUMN arrival text GENERATED ALWAYS AS (
    CASE WHEN arrival_seconds < 36000 THEN '0' ELSE '' END || CAST(arrival_seconds / 3600 AS text) || ':' ||
    substr(CAST(100 + arrival_seconds % 3600 / 60 AS text), 2) || ':' || substr(CAST(100 + arrival_seconds % 60 AS text), 2)
) VIRTUAL;
ALTER TABLE public_calls ADD COLUMN departure text GENERATED ALWAYS AS (
    CASE WHEN departure_seconds < 36000 THEN '0' ELSE '' END || CAST(departure_seconds / 3600 AS text) || ':' ||
    substr(CAST(100 + departure_seconds % 3600 / 60 AS text), 2) || ':' || substr(CAST(100 + departure_seconds % 60 AS text), 2)
) VIRTUAL;
ALTER TABLE public_calls ADD COLUMN passenger integer GENERATED ALWAYS AS (
    CASE WHEN get_off + get_on > 0 THEN 1 ELSE 0 END
) VIRTUAL;
