-- The tables, for SQLite and PostgreSQL. The columns of schedules, calls, changes and associations are the fields of
-- `cif table`, but `operator` is its operator_code, and `journey` and `number` stand for its schedule and call. A field
-- without a value is NULL. SQLite looks at no foreign key unless it is told to; PostgreSQL gets them once the tables are full.

-- One row: the header, the window and the form asked for, and what was loaded by what. `extracted_at` is NULL if the header has no such
-- time.
CREATE TABLE extract (
    mainframe_identity text,
    extract_date text,
    extract_time text,
    current_reference text,
    last_reference text,
    update_indicator text,
    version text,
    first_date date NOT NULL,
    last_date date NOT NULL,
    form integer NOT NULL,
    extracted_at text,
    file_name text NOT NULL,
    sha256 text NOT NULL,
    cif_version text NOT NULL,
    loaded_at text NOT NULL
);

-- The records TI as they stand, in the order of the extract.
CREATE TABLE tiplocs (
    id integer PRIMARY KEY,
    tiploc text,
    capitals text,
    nalco text,
    nlc_check text,
    tps_description text,
    stanox text,
    po_mcp_code text,
    crs_code text,
    description text
);

-- A row for each station, by its CRS code.
CREATE TABLE stations (
    crs text PRIMARY KEY,
    name text NOT NULL,
    latitude double precision,
    longitude double precision
);

-- The names of a station: its own, and those of its TIPLOCs. `search` is the name in small letters, without points and apostrophes.
CREATE TABLE station_names (
    station_crs text NOT NULL,
    name text NOT NULL,
    search text NOT NULL,
    FOREIGN KEY (station_crs) REFERENCES stations (crs)
);

-- A row for each TIPLOC. `crs` is its own code, and `station_crs` that of its station, whose name it has.
CREATE TABLE locations (
    tiploc text,
    crs text,
    station_crs text,
    name text NOT NULL,
    description text,
    nlc text,
    stanox text,
    latitude double precision,
    longitude double precision,
    FOREIGN KEY (station_crs) REFERENCES stations (crs)
);

-- A row for each operator of a schedule.
CREATE TABLE operators (
    operator text PRIMARY KEY,
    operator_name text NOT NULL
);

-- A row for each list of calls and changes en route of a UID, and of where it is for riders. Several schedules can have it.
CREATE TABLE journeys (
    id integer PRIMARY KEY,
    uid text NOT NULL
);

-- The working times stand as in the extract, and as seconds of the day by the clock.
CREATE TABLE calls (
    journey integer NOT NULL,
    number integer NOT NULL,
    record text NOT NULL,
    location text,
    suffix text,
    arrival text,
    departure text,
    pass text,
    public_arrival text,
    public_departure text,
    platform text,
    line text,
    path text,
    activities text,
    engineering text,
    pathing text,
    performance text,
    PRIMARY KEY (journey, number),
    FOREIGN KEY (journey) REFERENCES journeys (id)
) WITHOUT ROWID;

-- The calls with public times, as `cif table public` has them. Times go on past 24:00:00, and so do the seconds; `departure_time` is by
-- the clock. `get_off` and `get_on` are 1 where riders may get off and on, as the train is for riders when it arrives or leaves.
CREATE TABLE public_calls (
    journey integer NOT NULL,
    number integer NOT NULL,
    station_crs text,
    location text,
    platform text,
    arrival_seconds integer NOT NULL,
    departure_seconds integer NOT NULL,
    departure_time text NOT NULL,
    set_down integer NOT NULL,
    pick_up integer NOT NULL,
    get_off integer NOT NULL,
    get_on integer NOT NULL,
    PRIMARY KEY (journey, number),
    FOREIGN KEY (journey, number) REFERENCES calls (journey, number),
    FOREIGN KEY (station_crs) REFERENCES stations (crs)
) WITHOUT ROWID;

-- Changes en route, in their order by `sequence`, from 1. `number` is that of the call that follows.
CREATE TABLE changes (
    journey integer NOT NULL,
    sequence integer NOT NULL,
    number integer NOT NULL,
    location text,
    suffix text,
    category text,
    identity text,
    headcode text,
    course text,
    service_code text,
    sector text,
    power text,
    timing_load text,
    speed text,
    characteristics text,
    class text,
    sleepers text,
    reservations text,
    connection text,
    catering text,
    branding text,
    traction text,
    uic text,
    reserved_a text,
    FOREIGN KEY (journey, number) REFERENCES calls (journey, number)
);

-- A train runs from first_date to last_date, on the weekdays of days_run, from Monday to Sunday. `passenger` is 1 if riders may get
-- on or off at two of its calls or more, or else 0. `as_required` is 1 if it may run, and needn't. The ends are those of all calls,
-- with their working times; riders' ends are the first public call that isn't for setting down alone, and the last that isn't for
-- picking up alone.
CREATE TABLE schedules (
    id integer PRIMARY KEY,
    uid text NOT NULL,
    first_date date NOT NULL,
    last_date date NOT NULL,
    days_run text NOT NULL,
    status text,
    category text,
    identity text,
    headcode text,
    course text,
    service_code text,
    sector text,
    power text,
    timing_load text,
    speed text,
    characteristics text,
    class text,
    sleepers text,
    reservations text,
    connection text,
    catering text,
    branding text,
    extra text,
    traction text,
    uic text,
    operator text,
    timetable_code text,
    reserved_a text,
    reserved_b text,
    operator_name text,
    passenger integer NOT NULL,
    as_required integer NOT NULL,
    journey integer NOT NULL,
    origin text,
    departure text,
    destination text,
    arrival text,
    riders_origin text,
    riders_destination text,
    FOREIGN KEY (journey) REFERENCES journeys (id)
);

-- In the order of the extract by `id`, from 1.
CREATE TABLE associations (
    id integer PRIMARY KEY,
    base_uid text NOT NULL,
    associated_uid text NOT NULL,
    first_date date NOT NULL,
    last_date date NOT NULL,
    days_run text NOT NULL,
    category text,
    date_indicator text,
    location text,
    base_suffix text,
    associated_suffix text,
    diagram_type text,
    association_type text
);

-- Which trains riders reach in their seats, by an association: who boards the schedule before a call gets off the portion after one of
-- its own. The dates are those of the train that is boarded; the portion runs on the same date (S), the day after (N) or the day before
-- (P).
CREATE TABLE portions (
    association integer NOT NULL,
    schedule integer NOT NULL,
    journey integer NOT NULL,
    before_call integer NOT NULL,
    portion_schedule integer NOT NULL,
    portion_journey integer NOT NULL,
    after_call integer NOT NULL,
    first_date date NOT NULL,
    last_date date NOT NULL,
    days_run text NOT NULL,
    date_indicator text NOT NULL,
    FOREIGN KEY (association) REFERENCES associations (id),
    FOREIGN KEY (schedule) REFERENCES schedules (id),
    FOREIGN KEY (journey) REFERENCES journeys (id),
    FOREIGN KEY (portion_schedule) REFERENCES schedules (id),
    FOREIGN KEY (portion_journey) REFERENCES journeys (id)
);

-- The published schedules that decide what runs, or that nothing does (stp_indicator C), of a published extract: by uid, first_date and
-- stp_indicator real-time messages name them. One decides on the dates from wins_from to wins_to that are of the weekdays of days_run.
-- Where last_date is NULL its end is open.
CREATE TABLE published (
    uid text NOT NULL,
    first_date date NOT NULL,
    last_date date,
    stp_indicator text NOT NULL,
    wins_from date NOT NULL,
    wins_to date NOT NULL,
    days_run text NOT NULL
);

-- The dates of the window. `weekday` is the place of the date in days_run, from 1, Monday.
CREATE TABLE days (
    date date PRIMARY KEY,
    weekday integer NOT NULL
);

-- For each date of a base train, and for each date indicator of an association, the date of the associated train: the same (S), the day
-- after (N) or the day before (P).
CREATE TABLE associated_days (
    date date NOT NULL,
    weekday integer NOT NULL,
    date_indicator text NOT NULL,
    associated_date date NOT NULL,
    associated_weekday integer NOT NULL,
    PRIMARY KEY (date, date_indicator),
    FOREIGN KEY (date) REFERENCES days (date)
);

-- The weekdays of each days_run that a schedule or an association has.
CREATE TABLE weekdays (
    days_run text NOT NULL,
    weekday integer NOT NULL,
    PRIMARY KEY (days_run, weekday)
) WITHOUT ROWID;

-- For each date of a train, and for each number of midnights since, the date by the clock.
CREATE TABLE clock_days (
    date date NOT NULL,
    midnights integer NOT NULL,
    train_date date NOT NULL,
    weekday integer NOT NULL,
    PRIMARY KEY (date, midnights),
    FOREIGN KEY (train_date) REFERENCES days (date)
);

CREATE TABLE trains_per_day (
    date date NOT NULL,
    operator text,
    passenger integer NOT NULL,
    as_required integer NOT NULL,
    trains integer NOT NULL,
    FOREIGN KEY (date) REFERENCES days (date)
);
