-- SPDX-License-Identifier: Apache-2.0
-- Roles for the network's database, in PostgreSQL. A superuser gives, once the tables are there and after each migration:
--
--     psql service=bovtrila -v ON_ERROR_STOP=1 -1 -f network/roles.sql
--
-- bovtrila_owner owns the tables: it migrates, detaches months and removes a journal's rows. bovtrila_loader loads, compares
-- and checks; it can't change or remove a touch. bovtrila_reader asks. Each is a group: GRANT bovtrila_reader TO anna.

SET search_path = bovtrila;

DO $$
DECLARE
    role text;
    name text;
    path text := (SELECT reset_val FROM pg_settings WHERE pg_settings.name = 'search_path');
BEGIN
    FOREACH role IN ARRAY ARRAY['bovtrila_owner', 'bovtrila_loader', 'bovtrila_reader'] LOOP
        IF NOT EXISTS (SELECT FROM pg_roles WHERE rolname = role) THEN
            EXECUTE format('CREATE ROLE %I NOLOGIN', role);
        END IF;
    END LOOP;
    -- Whoever asks with psql finds the tables by their names alone. Those of other applications come first, as before.
    IF path !~ '\mbovtrila\M' THEN
        EXECUTE format('ALTER DATABASE %I SET search_path = %s', current_database(),
                       concat_ws(', ', nullif(path, ''), 'bovtrila'));
    END IF;
    -- Partitions and detached months are tables too.
    FOR name IN SELECT format('%I', relname) FROM pg_class
                WHERE relnamespace = 'bovtrila'::regnamespace AND relkind IN ('r', 'p', 'v') LOOP
        EXECUTE format('ALTER TABLE %s OWNER TO bovtrila_owner', name);
    END LOOP;
END $$;

GRANT USAGE, CREATE ON SCHEMA bovtrila TO bovtrila_owner;
GRANT USAGE ON SCHEMA bovtrila TO bovtrila_loader, bovtrila_reader;
ALTER TYPE act OWNER TO bovtrila_owner;
ALTER TYPE verdict OWNER TO bovtrila_owner;
ALTER FUNCTION make_month(date) OWNER TO bovtrila_owner;
REVOKE EXECUTE ON FUNCTION make_month(date) FROM PUBLIC;

GRANT SELECT ON schema_version, stations, servers, fare_tables, fare_stations, journals, revisions, touches, balances, gates,
    journeys, last_journeys, detached_months, history, held, last_loads, transfers, travel
    TO bovtrila_loader, bovtrila_reader;
GRANT INSERT ON stations, servers, fare_tables, fare_stations, journals, revisions, touches, balances, gates, journeys,
    last_journeys TO bovtrila_loader;
GRANT UPDATE ON journals, balances, gates TO bovtrila_loader;
GRANT DELETE ON balances, gates, last_journeys TO bovtrila_loader;
GRANT EXECUTE ON FUNCTION make_month(date) TO bovtrila_loader;
