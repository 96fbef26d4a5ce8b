"""The script for psql, against the PostgreSQL server that the environment names."""
from __future__ import annotations

import os
import subprocess
import threading
import time
from pathlib import Path
from typing import Dict, List, Optional, Tuple

from gtfs.checks import Counts, Word

from . import by_hand, checks, stations
from .checks import Maker
from .definition import Expected, SqlRow
from .failures import EARLIER, changed, failing_cif

BETWEEN, NULL = "\x1f", "\x02"
PSQL = ("psql", "-X", "-q", "-v", "ON_ERROR_STOP=1")


def psql(
    *words: str, schema: str = "cif", script: Optional[str] = None
) -> subprocess.CompletedProcess[str]:
    settings = {**os.environ, "PGOPTIONS": f"-c search_path={schema}"}
    return subprocess.run(
        [*PSQL, *words], env=settings, input=script, capture_output=True, text=True, check=False
    )


def rows_of(query: str) -> List[SqlRow]:
    """The rows of a query, each value as a text or None."""
    done = psql("-A", "-t", "-F", BETWEEN, "-P", f"null={NULL}", "-c", query)
    if done.returncode:
        raise RuntimeError(f"psql: {query}: {done.stderr}")
    lines = done.stdout.splitlines()
    return [
        tuple(None if value == NULL else value for value in line.split(BETWEEN)) for line in lines
    ]


def script_of(maker: Maker, *words: Word) -> str:
    done = maker.run("--postgres", *words)
    if done.returncode or done.stderr:
        raise RuntimeError(f"cif-sql {words} ends with {done.returncode}: {done.stderr}")
    return done.stdout


def load(maker: Maker, *words: Word) -> subprocess.CompletedProcess[str]:
    """How psql ends after a script."""
    return psql(script=script_of(maker, *words))


def check_database(counts: Counts, maker: Maker, expected: Expected) -> None:
    path = expected.source.path
    counts.same(f"{path.name}, psql", (0, "", ""), ended(load(maker, "--force", path)))
    checks.check_database(counts, expected, rows_of, "PostgreSQL")


def ended(done: subprocess.CompletedProcess[str]) -> Tuple[int, str, str]:
    return done.returncode, done.stdout, done.stderr


def refused(
    counts: Counts, name: str, reported: str, done: subprocess.CompletedProcess[str]
) -> None:
    """Whether psql ends a script early, and what the schema has stays."""
    counts.same(f"{name}, status", 3, done.returncode)
    counts.test(f"{name}, reported", reported in done.stderr, done.stderr)
    rows = rows_of("SELECT current_reference, (SELECT count(*) FROM runs) FROM extract")
    counts.same(f"{name}, what is there", [("DFTEST1", "20")], rows)


def check_replacement(counts: Counts, maker: Maker, special: Path) -> None:
    counts.same("the same extract again, in PostgreSQL", 0, load(maker, special).returncode)
    earlier = changed(maker, special, "earlier.cif", EARLIER)
    refused(counts, "an older extract, in PostgreSQL", "later extract", load(maker, earlier))
    script = script_of(maker, special)
    for part in 0.2, 0.5, 0.9:
        cut = script[: int(len(script) * part)].rpartition("\n")[0] + "\n"
        psql(script=cut)
        rows = rows_of("SELECT count(*) FROM runs")
        counts.same(f"{part} of a script leaves the old schema", [("20",)], rows)
    counts.same("a script after a cut one", 0, psql(script=script).returncode)
    by_force = load(maker, "--force", earlier)
    counts.same("an older extract by force, in PostgreSQL", 0, by_force.returncode)
    psql("-c", "CREATE SCHEMA mine; CREATE TABLE mine.kept (x integer); CREATE SCHEMA other_new")
    for schema in "mine", "other":
        done = load(maker, "--force", "--schema", schema, special)
        counts.same(f"the schema {schema} of somebody else, status", 3, done.returncode)
    rows = rows_of("SELECT nspname FROM pg_namespace WHERE nspname ~ '^(mine|other)' ORDER BY 1")
    counts.same("schemas of somebody else stay", [("mine",), ("other_new",)], rows)
    counts.same("its tables", [("0",)], rows_of("SELECT count(*) FROM mine.kept"))
    counts.same("another schema", 0, load(maker, "--schema", "second", special).returncode)
    rows = rows_of("SELECT count(*) FROM second.runs")
    counts.same("the trains in another schema", [("20",)], rows)


def check_misuse(counts: Counts, maker: Maker, special: Path) -> None:
    for name, words in (
        ("a bad schema", ("--postgres", "--schema", 'a"b')),
        ("a schema that another one is made in", ("--postgres", "--schema", "cif_new")),
        ("an output", ("--postgres", "-o", "made.db")),
        ("a schema for SQLite", ("--schema", "cif")),
    ):
        done = maker.run(*words, special)
        counts.same(f"{name} is refused", (2, ""), (done.returncode, done.stdout))
    failing = failing_cif(maker, "calls", "echo 'cif: Memory' >&2; exit 4")
    done = failing.run("--postgres", special)
    counts.same("cif fails, nothing is written", (4, "", "cif: Memory\n"), ended(done))
    (maker.folder / "failing-cif").unlink()


def check_readers(counts: Counts, maker: Maker, special: Path) -> None:
    """A reader that polls while the schema is replaced sees the old one or the new one, and never an error."""
    seen, done = set(), threading.Event()

    def poll() -> None:
        while not done.is_set():
            found = psql(
                "-A",
                "-t",
                "-c",
                "SELECT current_reference, count(*) FROM cif.extract, cif.runs GROUP BY 1",
            )
            seen.add(found.stdout + found.stderr)

    reader = threading.Thread(target=poll)
    first = changed(maker, special, "first.cif", ("DFTEST1", "DFTESTA"))
    scripts = [script_of(maker, "--force", path) for path in (first, special)]
    psql(script=scripts[1])
    reader.start()
    for number in range(6):
        psql(script=scripts[number % 2])
    done.set()
    reader.join()
    counts.same("what a reader of PostgreSQL sees", set(), seen - {"DFTESTA|20\n", "DFTEST1|20\n"})


def check_transactions(counts: Counts, maker: Maker, special: Path) -> None:
    """A transaction that reads one table after another isn't in a deadlock with a replacement."""
    reads = "BEGIN; SELECT 1 FROM cif.calls; SELECT pg_sleep(1.5);"
    tables = ("extract", "runs", "departures", "schedules", "public_calls")
    reads += " ".join(f"SELECT count(*) FROM cif.{table};" for table in tables)
    script, found = script_of(maker, special), []
    reader = threading.Thread(target=lambda: found.append(psql("-c", reads + " COMMIT")))
    reader.start()
    time.sleep(0.3)
    done = psql(script=script)
    reader.join()
    counts.same("a replacement beside a transaction", (0, "", ""), ended(done))
    counts.same(
        "a transaction beside a replacement", (0, ""), (found[0].returncode, found[0].stderr)
    )


def check_together(counts: Counts, maker: Maker, special: Path) -> None:
    """Of two scripts for one schema the second waits for the first."""
    script = script_of(maker, special)
    cuts = {
        "first": (script.index("COPY trains_per_day"), 2.0),
        "second": (script.index("COPY journeys"), 3.0),
    }
    ends: Dict[str, Tuple[int, str]] = {}

    def run(name: str) -> None:
        cut, seconds = cuts[name]
        with subprocess.Popen(
            PSQL, stdin=subprocess.PIPE, stderr=subprocess.PIPE, text=True
        ) as process:
            assert process.stdin is not None and process.stderr is not None
            process.stdin.write(script[:cut])
            process.stdin.flush()
            time.sleep(seconds)
            process.stdin.write(script[cut:])
            process.stdin.close()
            printed = process.stderr.read()
        ends[name] = (process.returncode, printed)

    threads = [threading.Thread(target=run, args=(name,)) for name in cuts]
    for thread in threads:
        thread.start()
        time.sleep(1)
    for thread in threads:
        thread.join()
    counts.same("two scripts at once", {"first": (0, ""), "second": (0, "")}, ends)
    counts.same("the trains after both", [("20",)], rows_of("SELECT count(*) FROM runs"))


def check_privileges(counts: Counts, maker: Maker, special: Path) -> None:
    """Who may read the schema may read the one that takes its place."""
    query = (
        "SELECT relname, relacl FROM pg_class WHERE relnamespace = 'cif'::regnamespace AND relacl IS NOT NULL"
        " UNION SELECT 'cif', nspacl FROM pg_namespace WHERE nspname = 'cif'"
        " UNION SELECT relname || '.' || attname, attacl FROM pg_attribute JOIN pg_class ON attrelid = pg_class.oid"
        " WHERE relnamespace = 'cif'::regnamespace AND attacl IS NOT NULL"
        " UNION SELECT defaclrole::regrole::text || ' ' || defaclobjtype::text, defaclacl FROM pg_default_acl"
        " WHERE defaclnamespace = 'cif'::regnamespace ORDER BY 1"
    )
    psql(
        "-c",
        'CREATE ROLE reader; CREATE ROLE "odd %s"; GRANT USAGE ON SCHEMA cif TO reader;'
        "GRANT SELECT ON ALL TABLES IN SCHEMA cif TO reader; GRANT SELECT ON runs TO PUBLIC;"
        "GRANT UPDATE ON days TO reader WITH GRANT OPTION;"
        'GRANT SELECT (uid), UPDATE (power) ON schedules TO "odd %s" WITH GRANT OPTION;'
        "ALTER DEFAULT PRIVILEGES IN SCHEMA cif GRANT SELECT ON TABLES TO reader;"
        'ALTER DEFAULT PRIVILEGES FOR ROLE "odd %s" IN SCHEMA cif GRANT USAGE ON TYPES TO PUBLIC',
    )
    before = rows_of(query)
    # the schema, 28 tables and views, two columns, and two privileges by default
    counts.same("privileges before", 33, len(before))
    counts.same("a script where a role reads", (0, "", ""), ended(load(maker, special)))
    counts.same("privileges", before, rows_of(query))
    found = psql("-A", "-t", "-c", "SET ROLE reader; SELECT count(*) FROM cif.runs")
    counts.same("what the role reads", (0, "20\n", ""), ended(found))


def check_strangers(counts: Counts, maker: Maker, special: Path) -> None:
    """What a role has made that may create schemas isn't called, as it would have the rights of
    whoever loads: neither by a view in place of the table, nor by a name."""
    psql("-c", "CREATE ROLE eve LOGIN; GRANT CREATE ON DATABASE postgres TO eve")
    psql("-c", "GRANT CREATE ON SCHEMA public TO eve")
    body = "LANGUAGE plpgsql AS 'BEGIN ALTER ROLE eve SUPERUSER; RETURN NULL; END'"
    made = (
        "CREATE SCHEMA theirs; COMMENT ON SCHEMA theirs IS 'made by cif-sql';"
        f"CREATE FUNCTION theirs.moment() RETURNS text {body};"
        "CREATE VIEW theirs.extract AS SELECT theirs.moment() AS extracted_at,"
        " date '2020-01-01' AS first_date, date '2020-01-01' AS last_date;"
        f"CREATE FUNCTION public.format(text, text, date, date) RETURNS text {body}"
    )
    counts.same("what eve makes", (0, "", ""), ended(psql("-U", "eve", "-c", made)))
    done = load(maker, "--schema", "theirs", special)
    counts.same("a schema that another user owns, status", 3, done.returncode)
    counts.test(
        "a schema that another user owns, reported", "of another user" in done.stderr, done.stderr
    )
    psql("-c", "ALTER SCHEMA theirs OWNER TO tests; ALTER VIEW theirs.extract OWNER TO tests")
    done = load(maker, "--schema", "theirs", special)
    counts.same("a view in place of the table, status", 3, done.returncode)
    counts.test("a view in place of the table, reported", "damaged" in done.stderr, done.stderr)
    eve = "SELECT rolsuper FROM pg_roles WHERE rolname = 'eve'"
    counts.same("whether eve is superuser by a view", [("f",)], rows_of(eve))
    psql("-c", "ALTER ROLE eve NOSUPERUSER; UPDATE extract SET extracted_at = '2030-01-01T00:00'")
    # with `public` among the schemas that are searched, as is usual
    done = psql(schema="public", script=script_of(maker, special))
    counts.test(
        "a function of another user", "later extract, of 2030-01-01T00:00" in done.stderr, done
    )
    counts.same("whether eve is superuser by a function", [("f",)], rows_of(eve))
    psql("-c", "DROP SCHEMA theirs CASCADE; DROP FUNCTION public.format(text, text, date, date)")
    by_force = load(maker, "--force", special)
    counts.same("special.cif by force", (0, "", ""), ended(by_force))


def check_words(counts: Counts) -> None:
    """No table or column has a word of PostgreSQL's for its name."""
    query = (
        "SELECT DISTINCT word FROM pg_get_keywords() JOIN information_schema.columns ON word IN (table_name, column_name)"
        " WHERE table_schema = 'cif' AND catcode = 'R'"
    )
    counts.same("names that are words of PostgreSQL", [], rows_of(query))
    [(count,)] = rows_of(
        "SELECT count(*) > 100 FROM information_schema.columns WHERE table_schema = 'cif'"
    )
    counts.same("there are columns", "t", count)


def check_stations(counts: Counts, maker: Maker) -> None:
    """The samples of published extracts."""
    for name, words, queries in stations.samples(maker):
        done = psql(script=maker.run("--postgres", "--force", *words).stdout)
        counts.same(f"{name} for psql", (0, "", ""), ended(done))
        by_hand.check_queries(counts, queries, rows_of, f"{name} in PostgreSQL")
    query = "SELECT count(*) FROM pg_constraint WHERE contype = 'f' AND connamespace = 'cif'::regnamespace"
    counts.same("foreign keys in PostgreSQL", [("15",)], rows_of(query))


def check(counts: Counts, maker: Maker, special: Path, blank: Path) -> None:
    counts.same("blank.cif for psql", 0, load(maker, "--force", blank).returncode)
    by_hand.check_queries(counts, by_hand.BLANK_QUERIES, rows_of, "PostgreSQL")
    counts.same("special.cif for psql", 0, load(maker, "--force", special).returncode)
    queries = {name: query for name, query in by_hand.QUERIES.items() if "typeof" not in query[0]}
    by_hand.check_queries(counts, queries, rows_of, "PostgreSQL")
    check_words(counts)
    check_replacement(counts, maker, special)
    check_misuse(counts, maker, special)
    check_readers(counts, maker, special)
    check_transactions(counts, maker, special)
    check_together(counts, maker, special)
    check_privileges(counts, maker, special)
    check_strangers(counts, maker, special)
    for path in maker.folder.glob("*.cif"):
        if path.name in ("earlier.cif", "first.cif"):
            path.unlink()
