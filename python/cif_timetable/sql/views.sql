-- The views, for SQLite and PostgreSQL. PostgreSQL expects a third of all rows where it can't tell how many are greater than something,
-- but very few that are equal to it: so the digits of days_run are compared by `>`.

-- The trains of each date, as `cif day` lists them.
CREATE VIEW runs AS
SELECT days.date, schedules.*
FROM days
JOIN weekdays ON weekdays.weekday = days.weekday
JOIN schedules ON schedules.days_run = weekdays.days_run
    AND days.date BETWEEN schedules.first_date AND schedules.last_date;

-- The trains of each date, each with the published schedule that decides it.
CREATE VIEW published_runs AS
SELECT
    runs.date,
    runs.uid,
    published.first_date,
    published.last_date,
    published.stp_indicator,
    runs.identity,
    runs.operator,
    runs.reserved_a,
    runs.id,
    runs.journey
FROM runs
JOIN days ON days.date = runs.date
JOIN published ON published.uid = runs.uid
    AND runs.date BETWEEN published.wins_from AND published.wins_to
    AND substr(published.days_run, days.weekday, 1) > '0';

-- The associations of each date, which is that of the base train.
CREATE VIEW associations_on AS
SELECT days.date, associated_days.associated_date, associations.*
FROM days
JOIN weekdays ON weekdays.weekday = days.weekday
JOIN associations ON associations.days_run = weekdays.days_run
    AND days.date BETWEEN associations.first_date AND associations.last_date
LEFT JOIN associated_days ON associated_days.date = days.date
    AND associated_days.date_indicator = coalesce(associations.date_indicator, 'S');

-- The calls of the trains of each date, which is the train's. After a midnight a call has the date of its train.
CREATE VIEW calls_on AS
SELECT
    runs.date,
    runs.uid,
    runs.identity,
    runs.status,
    runs.category,
    runs.operator,
    runs.passenger,
    coalesce(locations.name, calls.location) AS name,
    calls.*
FROM runs
JOIN calls ON calls.journey = runs.journey
LEFT JOIN locations ON locations.tiploc = calls.location;

-- Where riders can get on passenger trains, with the date and the time by the clock. The schedules that apply are looked for in an index
-- alone (`applied`), and only those are read.
CREATE VIEW departures AS
SELECT
    public_calls.station_crs,
    locations.crs,
    coalesce(locations.name, public_calls.location) AS station,
    clock_days.date,
    public_calls.departure_time AS time,
    public_calls.departure_seconds % 86400 AS seconds,
    clock_days.train_date,
    schedules.uid,
    schedules.identity,
    schedules.operator,
    schedules.operator_name,
    schedules.category,
    schedules.status,
    schedules.as_required,
    public_calls.platform,
    schedules.riders_origin AS origin,
    coalesce(starts.name, schedules.riders_origin) AS origin_name,
    schedules.riders_destination AS destination,
    coalesce(ends.name, schedules.riders_destination) AS destination_name,
    public_calls.pick_up,
    public_calls.set_down,
    public_calls.location,
    public_calls.journey,
    public_calls.number
FROM public_calls
LEFT JOIN locations ON locations.tiploc = public_calls.location
JOIN schedules AS applied ON applied.journey = public_calls.journey
JOIN clock_days ON clock_days.midnights = public_calls.departure_seconds / 86400
    AND clock_days.train_date BETWEEN applied.first_date AND applied.last_date
    AND substr(applied.days_run, clock_days.weekday, 1) > '0'
JOIN schedules ON schedules.id = applied.id
LEFT JOIN locations AS starts ON starts.tiploc = schedules.riders_origin
LEFT JOIN locations AS ends ON ends.tiploc = schedules.riders_destination
WHERE applied.passenger = 1 AND public_calls.get_on = 1;

-- Where riders can get off passenger trains, with the date and the time by the clock.
CREATE VIEW arrivals AS
SELECT
    public_calls.station_crs,
    locations.crs,
    coalesce(locations.name, public_calls.location) AS station,
    clock_days.date,
    substr(CAST(100 + public_calls.arrival_seconds % 86400 / 3600 AS text), 2) || ':' ||
        substr(CAST(100 + public_calls.arrival_seconds % 3600 / 60 AS text), 2) || ':' ||
        substr(CAST(100 + public_calls.arrival_seconds % 60 AS text), 2) AS time,
    public_calls.arrival_seconds % 86400 AS seconds,
    clock_days.train_date,
    schedules.uid,
    schedules.identity,
    schedules.operator,
    schedules.operator_name,
    schedules.category,
    schedules.status,
    schedules.as_required,
    public_calls.platform,
    schedules.riders_origin AS origin,
    coalesce(starts.name, schedules.riders_origin) AS origin_name,
    schedules.riders_destination AS destination,
    coalesce(ends.name, schedules.riders_destination) AS destination_name,
    public_calls.pick_up,
    public_calls.set_down,
    public_calls.location,
    public_calls.journey,
    public_calls.number
FROM public_calls
LEFT JOIN locations ON locations.tiploc = public_calls.location
JOIN schedules AS applied ON applied.journey = public_calls.journey
JOIN clock_days ON clock_days.midnights = public_calls.arrival_seconds / 86400
    AND clock_days.train_date BETWEEN applied.first_date AND applied.last_date
    AND substr(applied.days_run, clock_days.weekday, 1) > '0'
JOIN schedules ON schedules.id = applied.id
LEFT JOIN locations AS starts ON starts.tiploc = schedules.riders_origin
LEFT JOIN locations AS ends ON ends.tiploc = schedules.riders_destination
WHERE applied.passenger = 1 AND public_calls.get_off = 1;

-- The calls of each passenger train for riders, with names, dates and times by the clock.
CREATE VIEW stops_of AS
SELECT
    runs.date AS train_date,
    runs.uid,
    public_calls.number,
    public_calls.station_crs,
    coalesce(locations.name, public_calls.location) AS station,
    public_calls.location,
    public_calls.platform,
    arrival_days.date AS arrival_date,
    substr(CAST(100 + public_calls.arrival_seconds % 86400 / 3600 AS text), 2) || ':' ||
        substr(CAST(100 + public_calls.arrival_seconds % 3600 / 60 AS text), 2) || ':' ||
        substr(CAST(100 + public_calls.arrival_seconds % 60 AS text), 2) AS arrival,
    departure_days.date AS departure_date,
    public_calls.departure_time AS departure,
    public_calls.set_down,
    public_calls.pick_up,
    public_calls.get_off,
    public_calls.get_on,
    public_calls.journey
FROM runs
JOIN public_calls ON public_calls.journey = runs.journey
LEFT JOIN locations ON locations.tiploc = public_calls.location
JOIN clock_days AS arrival_days ON arrival_days.train_date = runs.date
    AND arrival_days.midnights = public_calls.arrival_seconds / 86400
JOIN clock_days AS departure_days ON departure_days.train_date = runs.date
    AND departure_days.midnights = public_calls.departure_seconds / 86400
WHERE runs.passenger = 1 AND public_calls.passenger = 1;

-- Rides without a change from one station to another, with the date and the time by the clock at the first one. `portion` is the UID of
-- the train at the second one, if that isn't the train that was boarded: it left that one (VV), that one joined it (JJ), or it goes on from
-- that one (NP). From where a train divides each of the two counts by itself.
CREATE VIEW rides AS
SELECT
    boarded.station_crs AS from_crs,
    reached.station_crs AS to_crs,
    clock_days.date,
    boarded.departure_time AS departure,
    arrival_days.date AS arrival_date,
    substr(CAST(100 + reached.arrival_seconds % 86400 / 3600 AS text), 2) || ':' ||
        substr(CAST(100 + reached.arrival_seconds % 3600 / 60 AS text), 2) || ':' ||
        substr(CAST(100 + reached.arrival_seconds % 60 AS text), 2) AS arrival,
    0 AS changes,
    clock_days.train_date,
    train.uid,
    train.identity,
    train.operator,
    train.as_required,
    CAST(NULL AS text) AS portion,
    boarded.platform,
    boarded.journey,
    boarded.number
FROM public_calls AS boarded
JOIN schedules AS applied ON applied.journey = boarded.journey
JOIN clock_days ON clock_days.midnights = boarded.departure_seconds / 86400
    AND clock_days.train_date BETWEEN applied.first_date AND applied.last_date
    AND substr(applied.days_run, clock_days.weekday, 1) > '0'
JOIN public_calls AS reached ON reached.journey = boarded.journey AND reached.number > boarded.number
LEFT JOIN clock_days AS arrival_days ON arrival_days.train_date = clock_days.train_date
    AND arrival_days.midnights = reached.arrival_seconds / 86400
LEFT JOIN schedules AS train ON train.id = applied.id
WHERE applied.passenger = 1 AND boarded.get_on = 1 AND reached.get_off = 1

UNION ALL

SELECT
    boarded.station_crs AS from_crs,
    reached.station_crs AS to_crs,
    clock_days.date,
    boarded.departure_time AS departure,
    arrival_days.date AS arrival_date,
    substr(CAST(100 + reached.arrival_seconds % 86400 / 3600 AS text), 2) || ':' ||
        substr(CAST(100 + reached.arrival_seconds % 3600 / 60 AS text), 2) || ':' ||
        substr(CAST(100 + reached.arrival_seconds % 60 AS text), 2) AS arrival,
    0 AS changes,
    clock_days.train_date,
    train.uid,
    train.identity,
    train.operator,
    train.as_required,
    other.uid AS portion,
    boarded.platform,
    boarded.journey,
    boarded.number
FROM public_calls AS boarded
JOIN portions ON portions.journey = boarded.journey AND portions.before_call > boarded.number
JOIN public_calls AS reached ON reached.journey = portions.portion_journey AND reached.number > portions.after_call
JOIN clock_days ON clock_days.midnights = boarded.departure_seconds / 86400
    AND clock_days.train_date BETWEEN portions.first_date AND portions.last_date
    AND substr(portions.days_run, clock_days.weekday, 1) > '0'
JOIN associated_days ON associated_days.date = clock_days.train_date AND associated_days.date_indicator = portions.date_indicator
LEFT JOIN clock_days AS arrival_days ON arrival_days.train_date = associated_days.associated_date
    AND arrival_days.midnights = reached.arrival_seconds / 86400
LEFT JOIN schedules AS train ON train.id = portions.schedule
LEFT JOIN schedules AS other ON other.id = portions.portion_schedule
WHERE boarded.get_on = 1 AND reached.get_off = 1;

-- The portions that riders of a train reach in their seats, on each date of the train that they board: who boards it before a call can
-- get off the portion after one of its own.
CREATE VIEW portions_on AS
SELECT
    days.date AS train_date,
    train.uid,
    portions.journey,
    portions.before_call,
    associations.category,
    associations.location,
    coalesce(places.name, associations.location) AS location_name,
    associated_days.associated_date AS portion_date,
    other.uid AS portion,
    portions.portion_journey,
    portions.after_call,
    train.riders_origin AS origin,
    coalesce(starts.name, train.riders_origin) AS origin_name,
    other.riders_destination AS destination,
    coalesce(ends.name, other.riders_destination) AS destination_name
FROM portions
JOIN days ON days.date BETWEEN portions.first_date AND portions.last_date
    AND substr(portions.days_run, days.weekday, 1) > '0'
JOIN associated_days ON associated_days.date = days.date AND associated_days.date_indicator = portions.date_indicator
LEFT JOIN associations ON associations.id = portions.association
LEFT JOIN schedules AS train ON train.id = portions.schedule
LEFT JOIN schedules AS other ON other.id = portions.portion_schedule
LEFT JOIN locations AS places ON places.tiploc = associations.location
LEFT JOIN locations AS starts ON starts.tiploc = train.riders_origin
LEFT JOIN locations AS ends ON ends.tiploc = other.riders_destination;
