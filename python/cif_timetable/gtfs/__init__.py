"""Makes GTFS of a CIF timetable extract: docs/GTFS.md says what becomes of what."""
