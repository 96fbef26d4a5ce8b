-- Ends the script if one of its schemas isn't of cif-sql, or if the one in its place has a later extract. Nothing that somebody else has
-- made is read, since what a view calls would run with the rights of this user.
DO $check$
DECLARE
    later text;
BEGIN
    IF EXISTS (
        SELECT FROM pg_namespace
        WHERE nspname IN ('@SCHEMA@', '@SCHEMA@_new')
            AND coalesce(obj_description(oid, 'pg_namespace'), '') <> 'made by cif-sql'
    ) THEN
        RAISE EXCEPTION 'the schema @SCHEMA@, or @SCHEMA@_new, isn''t one of cif-sql, so it isn''t replaced';
    END IF;
    IF EXISTS (
        SELECT FROM pg_namespace
        WHERE nspname IN ('@SCHEMA@', '@SCHEMA@_new') AND pg_get_userbyid(nspowner) <> current_user
    ) THEN
        RAISE EXCEPTION 'the schema @SCHEMA@, or @SCHEMA@_new, is of another user, so it isn''t replaced';
    END IF;
    IF NOT @FORCE@ AND EXISTS (SELECT FROM pg_class WHERE relname = 'extract' AND relnamespace = to_regnamespace('"@SCHEMA@"')) THEN
        IF NOT EXISTS (
            SELECT FROM pg_class
            WHERE relname = 'extract' AND relnamespace = to_regnamespace('"@SCHEMA@"') AND relkind = 'r'
                AND pg_get_userbyid(relowner) = current_user
        ) THEN
            RAISE EXCEPTION 'the schema @SCHEMA@ is damaged: its extract isn''t a table of this user; --force replaces it';
        END IF;
        SELECT format('of %s, from %s to %s', coalesce(extracted_at, 'no time'), first_date, last_date)
        INTO later
        FROM "@SCHEMA@".extract
        WHERE (coalesce(extracted_at, '') COLLATE "C", first_date, last_date)
            > ('@MOMENT@' COLLATE "C", date '@FIRST@', date '@LAST@');
        IF later IS NOT NULL THEN
            RAISE EXCEPTION 'the schema @SCHEMA@ has a later extract, %; --force replaces it', later;
        END IF;
    END IF;
END
$check$;
