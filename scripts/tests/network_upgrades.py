"""Tests of the database's version and its migrations, of the roles, of how a database is named, and of detached months. For
scripts/tests/test_network.py."""
import contextlib
import os
import pathlib
import subprocess
from typing import Any

import postgres
import town
from bovtrila.network import database
from network_base import (NETWORK, TIME, DatabaseTest, OnPostgres, OnSqlite, OverBothWithTown, call, cluster, everything,
                          load, room)

# The files that make the tables of each earlier version.
HERE = pathlib.Path(__file__).parent
MADE = {1: [HERE / "network_schema_1.sql"], 2: [HERE / "network_schema_2.sql"],
        3: [HERE / "network_schema_2.sql", NETWORK / "migrations" / "3.sql"],
        4: [HERE / "network_schema_2.sql", NETWORK / "migrations" / "3.sql", NETWORK / "migrations" / "4.sql",
            HERE / "network_views_4.sql"]}
# The columns of these tables, which today's tables have as well.
COLUMNS = {
    1: {"stations": "*", "servers": "*", "fare_tables": "*",
        "journals": "journal, server, name, version, capacity, cards, digest, touches, seal, closed, loaded",
        "revisions": "*", "touches": "*"},
    2: {"stations": "*", "servers": "*", "fare_tables": "*", "journals": "journal, server, name, version, capacity, cards, "
        "digest, touches, seal, closed, loaded, transfer_gate, checked, base", "revisions": "*", "touches": "*",
        "balances": "*", "detached_months": "*"}}
COLUMNS[3] = COLUMNS[4] = {**COLUMNS[2], "gates": "*"}
# Servers whose journals are loaded: the second one has a gate whose clock is put back.
LOADED = ("alder-1", town.WRONG)


class Migrations(OverBothWithTown):
    """A database of an earlier version with rows, and one that was loaded by these programs."""

    def schemas(self, base: str) -> list[str] | None:
        raise NotImplementedError

    def catalogue(self, base: str) -> list[Any]:
        raise NotImplementedError

    def earlier(self, version: int, name: str, new: str, owner: str | None = None) -> str:
        """A database of an earlier version with the rows of one of today's. In PostgreSQL it may have another owner."""
        with contextlib.closing(database.connect(new)) as base:
            rows = {table: base.table(f"SELECT {columns} FROM {table}") for table, columns in COLUMNS[version].items()}
        old = self.fresh(name)
        if owner:
            with contextlib.closing(database.connect(old)) as base:
                base.execute(f"ALTER DATABASE {name} OWNER TO {owner}")
                base.commit()
            old = old.replace("postgres@", f"{owner}@")
        with contextlib.closing(database.connect(old)) as base:
            base.begin()
            for file in MADE[version]:
                # Relative to the folder of the programs, as the files of migrations are.
                base.run_file(os.path.relpath(file, NETWORK))
            if version > 1:
                base.execute("UPDATE schema_version SET version = :version", version=version)
            base.make_months(["2025-01-30", "2025-02-01"])
            for table, (columns, values) in rows.items():
                given = "OVERRIDING SYSTEM VALUE" if table == "journals" and database.is_postgres(old) else ""
                for row in values:
                    named = ", ".join(f":{column}" for column in columns)
                    base.execute(f"INSERT INTO {table} ({', '.join(columns)}) {given} VALUES ({named})",
                                 **dict(zip(columns, row)))
            base.commit()
        return old

    def test_a_migrated_database_is_like_a_new_one(self) -> None:
        for version in COLUMNS:
            with self.subTest(version=version):
                self.migrate_and_continue(version)

    def migrate_and_continue(self, version: int) -> None:
        new = self.fresh(f"new{version}")
        for name in LOADED:
            self.assertEqual(load(name, "friday", new).returncode, 0)
        if version > 1:
            # One journal has touches that weren't checked.
            self.assertEqual([call("check", "--database", new).returncode, load(LOADED[0], "end", new).returncode], [0, 0])
        old = self.earlier(version, f"old{version}", new)
        done = load("alder-1", "end", old)
        self.assertEqual((done.returncode, done.stdout), (1, ""))
        self.assertIn(f"the database is of version {version}, and these programs need 5; migrate it: "
                      "bovtrila-network-migrate",
                      done.stderr)
        done = call("query", "holdings", "--database", old)
        self.assertEqual((done.returncode, done.stdout), (1, ""))
        self.assertEqual([call("migrate", "--database", old).stdout for _ in range(2)],
                         [f"version {version} -> 5\n", "version 5\n"])
        self.assertIn((town.GATE, True), self.asked(old, "SELECT DISTINCT gate, times_back > 0 FROM gates"))
        self.assertEqual(everything(old), everything(new))
        self.assertEqual(self.catalogue(old), self.catalogue(new))
        self.assertEqual(self.schemas(old), self.schemas(new))
        # It goes on from there.
        for base in (old, new):
            self.assertEqual([load(name, "end", base).returncode for name in LOADED], [0, 0])
            self.assertEqual([call("check", *more, "--database", base).returncode for more in ((), ("--all",))], [0, 0])
        self.assertEqual(everything(old), everything(new))

    def test_a_migration_that_fails_changes_nothing(self) -> None:
        new = self.fresh("sound")
        self.assertEqual(load("alder-1", "friday", new).returncode, 0)
        old = self.earlier(1, "broken", new)
        with contextlib.closing(database.connect(old)) as base:
            base.begin()
            base.execute("UPDATE touches SET balance = balance + 1 WHERE act <> 'revision'")
            base.commit()
        before = everything(old)
        done = call("migrate", "--database", old)
        self.assertEqual((done.returncode, done.stdout), (1, ""))
        self.assertIn("remove the journal's rows, migrate, and load it again", done.stderr)
        self.assertEqual(everything(old), before)

    def test_a_newer_version_is_refused(self) -> None:
        base = self.fresh("newer")
        self.assertEqual(load("alder-1", "friday", base).returncode, 0)
        with contextlib.closing(database.connect(base)) as opened:
            opened.begin()
            opened.execute("UPDATE schema_version SET version = 6")
            opened.commit()
        for name, *words in (["query", "holdings"], ["migrate"], ["check"]):
            done = call(name, *words, "--database", base)
            self.assertEqual((done.returncode, done.stdout), (1, ""))
            self.assertIn("the database is of version 6, and these programs know 5; use newer ones", done.stderr)


class SqliteMigrations(Migrations, OnSqlite, DatabaseTest):
    """In SQLite."""

    def schemas(self, _: str) -> None:
        """SQLite has no schemas."""

    def catalogue(self, base: str) -> list[Any]:
        """The tables with their columns, and the views and indexes."""
        names = self.asked(base, "SELECT type, name FROM sqlite_master ORDER BY type, name")
        return [(*each, self.asked(base, f"SELECT name, type, \"notnull\", pk FROM pragma_table_info('{each[1]}')"
                                         " ORDER BY name")) for each in names]


class PostgresMigrations(Migrations, OnPostgres, DatabaseTest):
    """In PostgreSQL."""

    def schemas(self, base: str) -> list[str]:
        """The schemas that have a table, a view, an index, a type or a function, but for PostgreSQL's own."""
        return [name for name, in self.asked(base, """
            SELECT DISTINCT nspname FROM pg_namespace
            JOIN (SELECT relnamespace AS oid FROM pg_class UNION SELECT typnamespace FROM pg_type
                  UNION SELECT pronamespace FROM pg_proc) AS used USING (oid)
            WHERE nspname NOT LIKE 'pg%' AND nspname <> 'information_schema' ORDER BY nspname""")]

    def test_all_is_in_a_schema_of_its_own(self) -> None:
        base = self.fresh("applications")
        with contextlib.closing(database.connect(base)) as opened:
            # Those of another application.
            opened.execute("CREATE TABLE public.journals (page integer); CREATE TABLE public.touches (page integer)")
            opened.commit()
        self.assertEqual([load(LOADED[0], part, base).returncode for part in ("friday", "end")], [0, 0])
        self.assertEqual(call("check", "--database", base).returncode, 0)
        self.assertEqual(call("migrate", "--database", base).stdout, "version 5\n")
        self.assertEqual(self.asked(base, "SELECT count(*) FROM pg_class WHERE relnamespace = 'public'::regnamespace"),
                         [(2,)])
        alone = self.fresh("alone")
        self.assertEqual(load(LOADED[0], "friday", alone).returncode, 0)
        self.assertEqual(self.schemas(alone), ["bovtrila"])

    def test_the_owner_of_a_database_migrates_it(self) -> None:
        new = self.fresh("of_postgres")
        self.assertEqual(load(LOADED[0], "friday", new).returncode, 0)
        with contextlib.closing(database.connect(new)) as base:
            base.execute("CREATE ROLE berta LOGIN")
            base.commit()
        old = self.earlier(3, "of_berta", new, "berta")
        done = call("migrate", "--database", old)
        self.assertEqual((done.stdout, done.stderr), ("version 3 -> 5\n", ""))
        self.assertEqual([load(LOADED[0], "end", old).returncode, call("check", "--database", old).returncode], [0, 0])

    def test_a_database_with_a_detached_month_is_migrated(self) -> None:
        new = self.fresh("month_off")
        self.assertEqual([load(name, "friday", new).returncode for name in LOADED], [0, 0])
        self.assertEqual(call("detach", "--before", "2025-02", "--database", new).returncode, 0)
        old = self.earlier(2, "old_month_off", new)
        with contextlib.closing(database.connect(old)) as base:
            base.execute("ALTER TABLE touches DETACH PARTITION touches_2025_01")
            base.commit()
        self.assertEqual(call("migrate", "--database", old).stdout, "version 2 -> 5\n")
        self.assertEqual(self.schemas(old), ["bovtrila"])
        answers, travels = [], []
        for name in (old, new):
            self.assertEqual([load(server, "end", name).returncode for server in LOADED], [0, 0])
            self.assertEqual([call("check", *more, "--database", name).returncode for more in ((), ("--all",))], [0, 0])
            travels.append(set(self.asked(name, "SELECT server, place, kind, day, legs, fare, charged FROM travel")))
            answers.append(call("query", "clocks", "--from", town.FRIDAY, "--to", town.SATURDAY, "--database", name).stdout)
        self.assertEqual(answers[0], answers[1])
        # Journeys that began in the detached month are missing, and no others.
        self.assertLess(travels[0], travels[1])
        self.assertEqual({row[3][:7] for row in travels[1] - travels[0]}, {"2025-01"})
        self.assertIn(f",{town.WRONG},{town.GATE},", answers[0])

    def catalogue(self, base: str) -> list[Any]:
        """The columns, the constraints and the indexes of all tables, and the views."""
        return [self.asked(base, text) for text in (
            "SELECT table_name, column_name, data_type, is_nullable, column_default FROM information_schema.columns"
            " WHERE table_schema = current_schema() ORDER BY 1, 2",
            "SELECT conrelid::regclass::text, contype::text, pg_get_constraintdef(oid) FROM pg_constraint"
            " WHERE connamespace = current_schema()::regnamespace ORDER BY 1, 2, 3",
            "SELECT tablename, indexdef FROM pg_indexes WHERE schemaname = current_schema() ORDER BY 1, 2",
            "SELECT viewname, definition FROM pg_views WHERE schemaname = current_schema() ORDER BY 1",
            "SELECT proname, prosrc FROM pg_proc WHERE pronamespace = current_schema()::regnamespace ORDER BY 1")]


class Owners(OnPostgres, DatabaseTest):
    """Roles, names of a database, and detached months, which PostgreSQL alone has."""

    def psql(self, base: str, *words: object) -> subprocess.CompletedProcess[str]:
        programs = postgres.programs()
        assert programs, "PostgreSQL is here"
        return subprocess.run([programs / "psql", base, "-v", "ON_ERROR_STOP=1", "-q", *map(str, words)],
                              capture_output=True, text=True, timeout=TIME)

    def test_each_role_may_do_what_it_is_for(self) -> None:
        base = self.fresh("roles")
        self.assertEqual(load("alder-1", "friday", base).returncode, 0)
        for _ in range(2):
            self.assertEqual(self.psql(base, "-1", "-f", NETWORK / "roles.sql").stderr, "")
        self.psql(base, "-c",
                  "CREATE ROLE carla LOGIN IN ROLE bovtrila_loader; CREATE ROLE anna LOGIN IN ROLE bovtrila_reader")
        loader, reader = (base.replace("postgres@", f"{name}@") for name in ("carla", "anna"))
        # A new month needs a partition, which the loader doesn't own.
        self.assertEqual([load("alder-1", "end", loader).stderr, call("check", "--all", "--database", loader).stderr],
                         ["", ""])
        self.assertEqual(call("query", "holdings", "--database", reader).returncode, 0)
        self.assertEqual(call("query", "freshness", "--from", town.SATURDAY, "--database", reader).returncode, 0)
        done = self.psql(reader, "-At", "-c", "SELECT count(*) > 0 FROM held")
        self.assertEqual((done.stdout, done.stderr), ("t\n", ""))
        self.assertEqual(self.psql(reader, "-At", "-c", "SHOW search_path").stdout, '"$user", public, bovtrila\n')
        self.assertIn("permission denied", load("birch-1", "end", reader).stderr)
        done = self.psql(reader, "-At", "-c", "SELECT count(*) > 0 FROM travel JOIN fare_stations ON digest = last_table")
        self.assertEqual((done.stdout, done.stderr), ("t\n", ""))
        for role, text in ((loader, "UPDATE touches SET balance = 0"), (loader, "DELETE FROM touches"),
                           (loader, "UPDATE journeys SET charged = 0"), (loader, "DELETE FROM journeys"),
                           (reader, "DELETE FROM last_journeys"),
                           (loader, "DROP TABLE balances"), (reader, "UPDATE journals SET closed = true"),
                           (reader, "SELECT make_month('2030-01-01')"), (reader, "INSERT INTO stations VALUES ('x')")):
            with self.subTest(text):
                done = self.psql(role, "-c", text)
                self.assertEqual((done.returncode, "permission denied" in done.stderr or "must be owner" in done.stderr),
                                 (1, True), done.stderr)

    def test_a_database_is_named_as_libpq_names_it(self) -> None:
        base, home = self.fresh("named"), room("network-named-")
        port = cluster().port
        (home / "services").write_text(f"[town]\nhost=127.0.0.1\nport={port}\ndbname=named\nuser=postgres\n")
        self.assertEqual(load("alder-1", "friday", base).returncode, 0)
        wanted = call("query", "holdings", "--database", base).stdout
        self.assertGreater(wanted.count("\n"), 30)
        of_service = {**os.environ, "PGSERVICEFILE": str(home / "services")}
        of_libpq = {**os.environ, "PGHOST": "127.0.0.1", "PGPORT": str(port), "PGUSER": "postgres", "PGDATABASE": "named"}
        for name, env in (("service=town", of_service), ("postgresql:///?service=town", of_service),
                          (f"host=127.0.0.1 port={port} dbname=named user=postgres", os.environ),
                          ("postgresql://", of_libpq)):
            with self.subTest(name):
                done = call("query", "holdings", "--database", name, env=dict(env))
                self.assertEqual((done.returncode, done.stdout), (0, wanted), done.stderr)

    def test_months_are_detached_once_everything_was_checked(self) -> None:
        base = self.fresh("months_off")
        for name in ("alder-1", "birch-1"):
            self.assertEqual(load(name, "friday", base).returncode, 0)
        held = call("query", "holdings", "--database", base).stdout
        words = ["--before", "2025-02", "--database", base]
        self.assertEqual(call("detach", *words, "--dry-run").stdout,
                         "journeys_2025_01: would be detached\ntouches_2025_01: would be detached\n")
        # A changed row stops it.
        for change, status in ((1, 3), (-1, 0)):
            self.psql(base, "-c", f"UPDATE bovtrila.touches SET balance = balance + {change} WHERE place = 60")
            done = call("detach", *words)
            self.assertEqual(done.returncode, status, done.stdout + done.stderr)
        self.assertEqual(done.stdout, "journeys_2025_01: detached\ntouches_2025_01: detached\n")
        self.assertEqual(call("query", "holdings", "--database", base).stdout, held)
        # Later touches are loaded, checked and compared as before.
        for name in ("alder-1", "birch-1"):
            self.assertEqual(load(name, "end", base).returncode, 0)
        self.assertEqual([call("check", *more, "--database", base).stdout.count("\n") for more in ((), ("--all",))], [1, 1])
        done = load("birch-1", "end", base, "--compare")
        self.assertEqual((done.returncode, done.stdout),
                         (0, f"birch-1 station.journal: {self.town.fronts['birch-1']} touches"
                          " compared, 0 differences\n"))
        rows = [row.split(",") for row in call("query", "holdings", "--database", base).stdout.splitlines()[1:]]
        wanted = [row for row in self.town.holdings() if row[0] in {int(row[0]) for row in rows}]
        self.assertEqual([tuple(map(int, row)) for row in rows], wanted)
        # A row behind the detached ones that was changed is found.
        self.psql(base, "-c", "UPDATE bovtrila.touches SET balance = balance + 1 WHERE place ="
                              " (SELECT max(place) FROM bovtrila.touches AS last WHERE last.journal = touches.journal)")
        self.assertEqual(call("check", "--all", "--database", base).returncode, 3)

    def test_sqlite_has_no_months_to_detach(self) -> None:
        done = call("detach", "--before", "2025-02", "--database", "network.db")
        self.assertEqual((done.returncode, done.stdout), (2, ""))
        self.assertIn("SQLite has no partitions; name a database of PostgreSQL", done.stderr)
