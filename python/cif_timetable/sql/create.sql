DROP SCHEMA IF EXISTS "@SCHEMA@_new" CASCADE;
CREATE SCHEMA "@SCHEMA@_new";
COMMENT ON SCHEMA "@SCHEMA@_new" IS 'made by cif-sql';
SET search_path = "@SCHEMA@_new";
