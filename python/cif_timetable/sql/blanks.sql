-- For SQLite and PostgreSQL: a blank TIPLOC of a place, a call or a train's end is an empty text, since no NULL is joined with another.
UPDATE locations SET tiploc = '' WHERE tiploc IS NULL;
UPDATE calls SET location = '' WHERE location IS NULL;
UPDATE public_calls SET location = '' WHERE location IS NULL;
UPDATE schedules SET origin = '' WHERE origin IS NULL;
UPDATE schedules SET destination = '' WHERE destination IS NULL;
UPDATE schedules SET riders_origin = '' WHERE riders_origin IS NULL AND passenger = 1;
UPDATE schedules SET riders_destination = '' WHERE riders_destination IS NULL AND passenger = 1;
