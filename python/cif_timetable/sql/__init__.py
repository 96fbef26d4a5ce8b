"""Makes a database of a CIF timetable extract: docs/SQL.md describes its tables and views."""
