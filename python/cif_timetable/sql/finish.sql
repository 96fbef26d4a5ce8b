-- Whoever may use the old schema, its tables and their columns may use the new ones, and what is made in it later has the same
-- privileges by default.
DO $privileges$
DECLARE
    statement text;
BEGIN
    FOR statement IN
        SELECT
            command || ' ' || privilege_type || columns || ' ON ' || object || ' TO ' ||
            CASE grantee WHEN 0 THEN 'PUBLIC' ELSE quote_ident(pg_get_userbyid(grantee)) END ||
            CASE WHEN is_grantable THEN ' WITH GRANT OPTION' ELSE '' END
        FROM (
            SELECT 'GRANT', '', 'SCHEMA "@SCHEMA@_new"', nspacl
            FROM pg_namespace
            WHERE nspname = '@SCHEMA@'
            UNION ALL
            SELECT 'GRANT', '', format('"@SCHEMA@_new".%I', relname), old.relacl
            FROM pg_class AS old
            JOIN pg_class AS new USING (relname)
            WHERE old.relnamespace = to_regnamespace('"@SCHEMA@"') AND new.relnamespace = to_regnamespace('"@SCHEMA@_new"')
            UNION ALL
            SELECT 'GRANT', format(' (%I)', attname), format('"@SCHEMA@_new".%I', relname), old_column.attacl
            FROM pg_class AS old
            JOIN pg_class AS new USING (relname)
            JOIN pg_attribute AS old_column ON old_column.attrelid = old.oid
            JOIN pg_attribute AS new_column USING (attname)
            WHERE old.relnamespace = to_regnamespace('"@SCHEMA@"') AND new.relnamespace = to_regnamespace('"@SCHEMA@_new"')
                AND new_column.attrelid = new.oid
            UNION ALL
            SELECT
                format('ALTER DEFAULT PRIVILEGES FOR ROLE %I IN SCHEMA "@SCHEMA@_new" GRANT', pg_get_userbyid(defaclrole)),
                '',
                CASE defaclobjtype WHEN 'r' THEN 'TABLES' WHEN 'S' THEN 'SEQUENCES' WHEN 'f' THEN 'FUNCTIONS' ELSE 'TYPES' END,
                defaclacl
            FROM pg_default_acl
            WHERE defaclnamespace = to_regnamespace('"@SCHEMA@"') AND pg_has_role(defaclrole, 'USAGE')
        ) AS objects (command, columns, object, acl)
        CROSS JOIN aclexplode(acl)
    LOOP
        EXECUTE statement;
    END LOOP;
END
$privileges$;
-- A reader that holds one old table and waits for another one would be in a deadlock with this, so it doesn't wait for long, and
-- tries again.
DO $finish$
BEGIN
    SET LOCAL lock_timeout = '300ms';
    FOR attempt IN 1..2000 LOOP
        BEGIN
            DROP SCHEMA IF EXISTS "@SCHEMA@" CASCADE;
            RETURN;
        EXCEPTION WHEN lock_not_available THEN
            PERFORM pg_sleep(0.1);
        END;
    END LOOP;
    RAISE EXCEPTION 'the schema @SCHEMA@ is always read, so it can''t be replaced';
END
$finish$;
ALTER SCHEMA "@SCHEMA@_new" RENAME TO "@SCHEMA@";
COMMIT;
