-- Written by cif-sql for psql. What it loads takes its place in the last transaction.
\set ON_ERROR_STOP on
-- Before anything is called: another schema can have functions of the same names.
SET search_path = pg_catalog;
SET client_encoding = 'UTF8';
SET client_min_messages = warning;
-- Another script that fills the schema is waited for, since either would fill the tables of the other. The lock ends with psql.
DO $wait$
BEGIN
    PERFORM pg_advisory_lock(hashtext('cif-sql'), hashtext('@SCHEMA@'));
END
$wait$;
