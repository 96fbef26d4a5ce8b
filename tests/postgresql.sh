# shellcheck shell=sh
# A PostgreSQL server of the tests' own, on a socket in a folder of its own: no port, and none of the machine's databases.

# as_user COMMAND..: runs the command as this user, or as one that isn't root, since PostgreSQL refuses root
as_user() {
    if [ "$(id -u)" -eq 0 ]; then
        PATH=$PATH:/usr/sbin:/sbin runuser -u "$postgresql_user" -- "$@"
    else
        "$@"
    fi
}

# start_postgresql: starts a server, and names it to psql by PGHOST, PGUSER and PGDATABASE; the status is 1 if it can't be had
start_postgresql() {
    postgresql_programs=$(dirname "$(command -v initdb || find /usr/lib/postgresql -name initdb 2> /dev/null | sort -V | tail -n 1)")
    if [ ! -x "$postgresql_programs/initdb" ] || ! command -v psql > /dev/null; then
        return 1
    fi
    postgresql_user=nobody
    if id postgres > /dev/null 2>&1; then
        postgresql_user=postgres
    fi
    postgresql=$(mktemp -d) || return 1
    if [ "$(id -u)" -eq 0 ]; then
        chown "$postgresql_user" "$postgresql"
    fi
    (cd "$postgresql" && as_user "$postgresql_programs/initdb" -D "$postgresql/data" -U tests -A trust -E UTF8 --locale=C --no-sync &&
        as_user "$postgresql_programs/pg_ctl" -D "$postgresql/data" -l "$postgresql/log" -w -o "-k '$postgresql' -h '' -F" start) \
        > /dev/null 2>&1 || {
        stop_postgresql
        return 1
    }
    export PGHOST="$postgresql" PGUSER=tests PGDATABASE=postgres PGOPTIONS="" PGPASSFILE="$postgresql/none" PSQLRC=/dev/null
    unset PGPORT PGSERVICE
}

# stop_postgresql: stops the server, if there is one, and removes what it has written
stop_postgresql() {
    if [ -n "${postgresql-}" ]; then
        (cd "$postgresql" && as_user "$postgresql_programs/pg_ctl" -D "$postgresql/data" -m immediate -w stop) > /dev/null 2>&1
        rm -rf "$postgresql"
        postgresql=
    fi
}
