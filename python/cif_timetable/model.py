"""What a timetable consists of, as values.

The fields have the names of the tables that `cif table` writes, in their order; docs/FORMAT.md says
what each means. The place of a call is its `tiploc`, and `class_` and `pass_` are `class` and `pass`,
which Python can't take as names. A blank is None. Codes are texts as they stand, without the spaces
at their ends. Times are those of the clocks in Britain.
"""
from __future__ import annotations

from dataclasses import dataclass
from datetime import date, datetime, time, timedelta

# The types of fields that are called `date` and `time` themselves.
Date = date
Time = time


@dataclass(frozen=True, slots=True)
class Header:
    """The header of an extract. `first_date` and `last_date` are its window, or the part of it that
    was asked for; the date and the time of the extract are DDMMYY and HHMM."""

    mainframe_identity: str | None
    extract_date: str | None
    extract_time: str | None
    current_reference: str | None
    last_reference: str | None
    update_indicator: str | None
    version: str | None
    first_date: date
    last_date: date

    @property
    def extracted_at(self) -> datetime | None:
        """When the extract was made, or None if the header has no such date and time."""
        text = f"{self.extract_date or ''}{self.extract_time or ''}"
        if not (len(text) == 10 and text.isascii() and text.isdigit()):
            return None
        day, month, year, hour, minute = (int(text[at : at + 2]) for at in range(0, 10, 2))
        try:
            return datetime(year + (1900 if year >= 60 else 2000), month, day, hour, minute)
        except ValueError:
            return None


@dataclass(frozen=True, slots=True)
class Location:
    """A TIPLOC (a record TI)."""

    tiploc: str
    capitals: str | None
    nalco: str | None
    nlc_check: str | None
    tps_description: str | None
    stanox: str | None
    po_mcp_code: str | None
    crs_code: str | None
    description: str | None


class _OnDates:
    """What holds on dates."""

    __slots__ = ()
    first_date: date
    last_date: date
    days_run: str

    def runs_on(self, day: date) -> bool:
        """Whether it does so on a date."""
        return self.first_date <= day <= self.last_date and self.days_run[day.weekday()] == "1"


@dataclass(frozen=True, slots=True)
class Association(_OnDates):
    """An association of two trains: the associated one joins the base train, leaves it, or goes on
    from it. It holds from the first date to the last, on the days of `days_run`, Monday first, such
    as "1111100". The dates are those of the base train."""

    base_uid: str
    associated_uid: str
    first_date: date
    last_date: date
    days_run: str
    category: str | None
    date_indicator: str | None
    location: str
    base_suffix: str | None
    associated_suffix: str | None
    diagram_type: str | None
    association_type: str | None


@dataclass(frozen=True, slots=True)
class Schedule(_OnDates):
    """A schedule of a train (records BS and BX). The train runs so from the first date to the last,
    on the days of `days_run`, Monday first, such as "1111100". At most one schedule of a UID runs on
    a date. The number `schedule` lasts for one timetable: the UID and the first date are the key.
    """

    schedule: int
    uid: str
    first_date: date
    last_date: date
    days_run: str
    status: str | None
    category: str | None
    identity: str | None
    headcode: str | None
    course: str | None
    service_code: str | None
    sector: str | None
    power: str | None
    timing_load: str | None
    speed: str | None
    characteristics: str | None
    class_: str | None
    sleepers: str | None
    reservations: str | None
    connection: str | None
    catering: str | None
    branding: str | None
    extra: str | None
    traction: str | None
    uic: str | None
    operator_code: str | None
    timetable_code: str | None
    reserved_a: str | None
    reserved_b: str | None


@dataclass(frozen=True, slots=True)
class Call:
    """A call or a pass of a schedule, by its number from 1 (a record LO, LI or LT). Working times
    are to the half minute. A public time 0000 is None, as it means that there is none; a working
    one is midnight. After a midnight times begin at 0 again. Allowances are in minutes, with H for
    half a minute, as they stand."""

    schedule: int
    call: int
    record: str
    tiploc: str
    suffix: str | None
    arrival: time | None
    departure: time | None
    pass_: time | None
    public_arrival: time | None
    public_departure: time | None
    platform: str | None
    line: str | None
    path: str | None
    activities: str | None
    engineering: str | None
    pathing: str | None
    performance: str | None


@dataclass(frozen=True, slots=True)
class Train(Schedule):
    """A schedule with its calls, from its origin to its terminus."""

    calls: tuple[Call, ...]

    @property
    def origin(self) -> Call:
        return self.calls[0]

    @property
    def terminus(self) -> Call:
        return self.calls[-1]


@dataclass(frozen=True, slots=True)
class PublicCall:
    """A call that riders can use. Its times are counted from the midnight with which the date of its
    train begins, and go on past 24 hours. `set_down` is 0 if riders may get off, 1 if not, and 3
    if on request; `pick_up` is so if they may get on."""

    schedule: int
    call: int
    tiploc: str
    platform: str | None
    arrival: timedelta
    departure: timedelta
    set_down: int
    pick_up: int


@dataclass(frozen=True, slots=True)
class _AtPlace:
    """What departures and arrivals have in common."""

    date: Date
    time: Time
    train_date: Date
    uid: str
    identity: str | None
    operator_code: str | None
    category: str | None
    status: str | None
    tiploc: str
    platform: str | None
    call: int
    origin: str
    origin_name: str | None
    destination: str
    destination_name: str | None


@dataclass(frozen=True, slots=True)
class Arrival(_AtPlace):
    """A call at which riders may get off. `date` and `time` are those of the arrival, by the clock;
    `train_date` is the date on which the train starts, which may be the one before. `call` is the
    number of the call. `origin` and `destination` are TIPLOCs, those between which riders may travel;
    a name is None where the timetable has none."""


@dataclass(frozen=True, slots=True)
class Departure(_AtPlace):
    """A call at which riders may get on. `date` and `time` are those of the departure, by the clock;
    `train_date` is the date on which the train starts, which may be the one before. `call` is the
    number of the call. `origin` and `destination` are TIPLOCs, those between which riders may travel;
    a name is None where the timetable has none.

    If it was asked where the train calls later, `calling_at` is the first TIPLOC there at which riders
    may get off, with the date and the time of the arrival by the clock. Else these three are None.
    """

    calling_at: str | None = None
    calling_at_date: Date | None = None
    calling_at_time: Time | None = None


@dataclass(frozen=True, slots=True)
class Winner:
    """Dates on which one published schedule decides what a train does. It is the schedule that was
    published with this UID, first date and letter (`stp_indicator`: P permanent, O overlay, N new, C
    cancelled); `last_date` is None where the end is open. It decides from `wins_from` to `wins_to`, on
    the days of `days_run`, Monday first."""

    uid: str
    first_date: date
    last_date: date | None
    stp_indicator: str
    wins_from: date
    wins_to: date
    days_run: str


@dataclass(frozen=True, slots=True)
class ChangeEnRoute:
    """A change of the train on its way (a record CR). `call` is the number of the call that
    follows."""

    schedule: int
    call: int
    tiploc: str
    suffix: str | None
    category: str | None
    identity: str | None
    headcode: str | None
    course: str | None
    service_code: str | None
    sector: str | None
    power: str | None
    timing_load: str | None
    speed: str | None
    characteristics: str | None
    class_: str | None
    sleepers: str | None
    reservations: str | None
    connection: str | None
    catering: str | None
    branding: str | None
    traction: str | None
    uic: str | None
    reserved_a: str | None


@dataclass(frozen=True, slots=True)
class Difference:
    """A difference of two timetables. `change` is "<" of what only the first one says, ">" of what
    only the other one says, and "<>" of one field in which two records with the same dates differ:
    then `field` names it, and `left` and `right` have its values. `kind` is "TI" of a location, which
    `tiploc` names, "AA" of an association, or "BS" of a schedule. If the field is that of a call,
    `call`, `record` and `place` say of which one; the number is that of the first timetable."""

    change: str
    kind: str
    tiploc: str | None
    uid: str | None
    associated_uid: str | None
    location: str | None
    base_suffix: str | None
    associated_suffix: str | None
    first_date: date | None
    last_date: date | None
    days_run: str | None
    call: int | None
    record: str | None
    place: str | None
    field: str | None
    left: str | None
    right: str | None


@dataclass(frozen=True, slots=True)
class Counts:
    """How many canonical records a timetable has."""

    locations: int
    associations: int
    schedules: int


@dataclass(frozen=True, slots=True)
class ChangeCounts:
    """How many records two timetables have differently, of one kind: only the first one says those
    that are `removed`, only the other one those that are `added`, and `changed` are pairs with the
    same dates."""

    removed: int
    added: int
    changed: int


@dataclass(frozen=True, slots=True)
class Changes:
    """In how many records two timetables differ on the dates that both have, by kind."""

    locations: ChangeCounts
    associations: ChangeCounts
    schedules: ChangeCounts
