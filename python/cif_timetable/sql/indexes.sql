CREATE UNIQUE INDEX locations_tiploc ON locations (tiploc);
CREATE INDEX locations_crs ON locations (crs);
CREATE INDEX locations_station ON locations (station_crs);
CREATE INDEX stations_name ON stations (name);
CREATE INDEX station_names_search ON station_names (search);
-- All calls at a place, by the time at which a train is there last.
CREATE INDEX calls_location ON calls (location, coalesce(departure, pass, arrival));
CREATE INDEX public_calls_location ON public_calls (location);
-- The next departures of a station stand one after the other, and a board is in the index alone.
CREATE INDEX public_calls_station ON public_calls (
    station_crs, departure_time, departure_seconds, get_on, arrival_seconds, get_off, location, platform, pick_up, set_down, journey, number
);
-- Whether a train that calls at one station goes to another is in this one.
CREATE INDEX public_calls_journey ON public_calls (station_crs, journey, number);
CREATE INDEX changes_journey ON changes (journey, number);
CREATE UNIQUE INDEX schedules_uid ON schedules (uid, first_date);
-- Whether a train runs on a date is in these indexes.
CREATE INDEX schedules_journey ON schedules (journey, passenger, first_date, last_date, days_run, id);
CREATE INDEX schedules_dates ON schedules (days_run, first_date, last_date);
CREATE INDEX schedules_identity ON schedules (identity);
CREATE INDEX schedules_reserved_a ON schedules (reserved_a);
CREATE INDEX associations_base ON associations (base_uid);
CREATE INDEX associations_associated ON associations (associated_uid);
CREATE INDEX associations_dates ON associations (days_run, first_date, last_date);
CREATE INDEX portions_journey ON portions (journey);
CREATE INDEX portions_portion_journey ON portions (portion_journey);
CREATE INDEX weekdays_weekday ON weekdays (weekday, days_run);
CREATE INDEX trains_per_day_date ON trains_per_day (date);
CREATE UNIQUE INDEX clock_days_train ON clock_days (train_date, midnights);
CREATE UNIQUE INDEX associated_days_associated ON associated_days (associated_date, date_indicator);
CREATE INDEX published_uid ON published (uid, wins_from);
