"""Shows on one HTML page how two CIF timetable extracts differ: docs/REPORT.md describes it."""
