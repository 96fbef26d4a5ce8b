"""Holds a database or a GTFS feed against the extract that it was made of.

Nothing here is shared with `sql` and `gtfs`, which make them. What `cif` says of the extract is compared
with what is read from the database or the zip: docs/SQL.md and docs/GTFS.md say what of it.

- `difference`: how a difference ends a run, and rows held against rows
- `riders`: at which calls a train is for riders
- `database`, `dates`, `derived`: a database, by SELECT alone
- `feed`, `zipped`, `trains`, `links`: a feed
"""
