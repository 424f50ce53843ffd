-- SPDX-License-Identifier: Apache-2.0
-- From version 3: in PostgreSQL the tables move into the schema bovtrila, with their partitions and the detached months.
/*pg*/
DROP VIEW IF EXISTS transfers, last_loads, held, history;
DROP FUNCTION IF EXISTS make_month(date);
DO $$
DECLARE
    old regnamespace := (SELECT relnamespace FROM pg_class WHERE oid = 'journals'::regclass);
    name text;
BEGIN
    IF to_regnamespace('bovtrila') IS NULL THEN
        CREATE SCHEMA bovtrila;
    END IF;
    IF old <> 'bovtrila'::regnamespace THEN
        FOR name IN
            SELECT oid::regclass::text FROM pg_class
            WHERE relnamespace = old AND relkind IN ('r', 'p')
                AND (relname IN ('schema_version', 'stations', 'servers', 'fare_tables', 'journals', 'revisions', 'balances',
                                 'gates', 'detached_months')
                     OR oid IN (SELECT relid FROM pg_partition_tree('touches'))
                     OR relname IN (SELECT 'touches_' || to_char(month, 'YYYY_MM') FROM detached_months)) LOOP
            EXECUTE format('ALTER TABLE %s SET SCHEMA bovtrila', name);
        END LOOP;
        ALTER TYPE act SET SCHEMA bovtrila;
        ALTER TYPE verdict SET SCHEMA bovtrila;
    END IF;
END $$;
/*end*/
