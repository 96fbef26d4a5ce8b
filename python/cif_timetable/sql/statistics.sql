-- How many calls there are after each number of midnights, which PostgreSQL doesn't know of what is worked out.
CREATE STATISTICS public_calls_arrivals ON (arrival_seconds / 86400) FROM public_calls;
CREATE STATISTICS public_calls_departures ON (departure_seconds / 86400) FROM public_calls;
