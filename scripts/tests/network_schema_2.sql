-- The tables of version 2, with its views and the function that makes a partition.

/*pg*/
CREATE TYPE act AS ENUM ('in', 'out', 'top-up', 'issue', 'revision');
CREATE TYPE verdict AS ENUM (
    'Entered', 'EnteredContinued', 'EnteredOverOpen', 'Exited', 'ExitedUnstarted', 'ExitedLate', 'ToppedUp', 'Issued',
    'Revised', 'UnknownCard', 'AlreadyIssued', 'UnknownStation', 'Backwards', 'LowBalance', 'BadAmount', 'OverLimit',
    'BadDay');
/*end*/

CREATE TABLE schema_version (
    version integer NOT NULL
);
INSERT INTO schema_version (version) VALUES (2);

CREATE TABLE stations (
    name text PRIMARY KEY CHECK (name <> '')
);

CREATE TABLE servers (
    name text PRIMARY KEY CHECK (name <> ''),
    station text NOT NULL REFERENCES stations,
    first_card bigint NOT NULL CHECK (first_card >= 1)
);

CREATE TABLE fare_tables (
    digest text PRIMARY KEY,
    content /*pg*/ bytea /*end*/ /*sqlite blob */ NOT NULL,
    CHECK (/*pg*/ digest = encode(sha256(content), 'hex') /*end*/ /*sqlite length(digest) = 64 */)
);

CREATE TABLE journals (
    journal integer /*pg*/ GENERATED ALWAYS AS IDENTITY /*end*/ PRIMARY KEY,
    server text NOT NULL REFERENCES servers,
    name text NOT NULL CHECK (name <> ''),
    version smallint NOT NULL CHECK (version IN (1, 2)),
    capacity integer NOT NULL CHECK (capacity BETWEEN 1 AND 1000000),
    cards integer NOT NULL CHECK (cards BETWEEN 1 AND 100000),
    digest text NOT NULL REFERENCES fare_tables,
    touches integer NOT NULL,
    seal text NOT NULL CHECK (length(seal) = 64),
    closed boolean NOT NULL DEFAULT false,
    loaded timestamp /*pg*/ with time zone /*end*/ NOT NULL DEFAULT CURRENT_TIMESTAMP,
    transfer_gate integer NOT NULL DEFAULT 65535 CHECK (transfer_gate BETWEEN 0 AND 65535),
    checked integer NOT NULL DEFAULT 0,
    base integer NOT NULL DEFAULT 0,
    CHECK (touches BETWEEN 0 AND capacity),
    UNIQUE (server, name)
);

CREATE UNIQUE INDEX journals_open ON journals (server) WHERE NOT closed;

CREATE TABLE revisions (
    journal integer NOT NULL REFERENCES journals,
    place integer NOT NULL,
    digest text NOT NULL REFERENCES fare_tables,
    first_day integer NOT NULL,
    verdict /*pg*/ verdict /*end*/ /*sqlite text */ NOT NULL CHECK (verdict IN ('Revised', 'BadDay')),
    PRIMARY KEY (journal, place)
);

CREATE TABLE touches (
    journal integer NOT NULL REFERENCES journals,
    place integer NOT NULL CHECK (place >= 0),
    moment /*pg*/ timestamp with time zone /*end*/ /*sqlite text */ NOT NULL,
    day /*pg*/ date /*end*/ /*sqlite text */ NOT NULL,
    gate integer NOT NULL CHECK (gate BETWEEN 0 AND 65535),
    number bigint NOT NULL CHECK (number BETWEEN 0 AND 4294967295),
    card bigint NOT NULL CHECK (card BETWEEN 0 AND 4294967295),
    act /*pg*/ act /*end*/ /*sqlite text */ NOT NULL,
    station_number integer CHECK (station_number BETWEEN 0 AND 65535),
    pence bigint CHECK (pence BETWEEN 0 AND 4294967295),
    verdict /*pg*/ verdict /*end*/ /*sqlite text */ NOT NULL,
    change integer NOT NULL,
    balance bigint NOT NULL,
    CONSTRAINT touches_fields CHECK (
        (station_number IS NOT NULL) = (act IN ('in', 'out')) AND (pence IS NOT NULL) = (act = 'top-up')),
    CONSTRAINT touches_verdict CHECK (CASE act
        WHEN 'in' THEN verdict IN ('Entered', 'EnteredContinued', 'EnteredOverOpen', 'UnknownCard', 'UnknownStation',
                                   'Backwards', 'LowBalance')
        WHEN 'out' THEN verdict IN ('Exited', 'ExitedUnstarted', 'ExitedLate', 'UnknownCard', 'UnknownStation',
                                    'Backwards')
        WHEN 'top-up' THEN verdict IN ('ToppedUp', 'UnknownCard', 'BadAmount', 'OverLimit')
        WHEN 'issue' THEN verdict IN ('Issued', 'UnknownCard', 'AlreadyIssued')
        WHEN 'revision' THEN verdict IN ('Revised', 'BadDay')
        ELSE false END),
    CONSTRAINT touches_change CHECK (CASE
        WHEN act = 'revision' THEN change = 0 AND balance = 0
        WHEN verdict = 'ToppedUp' THEN change = pence
        WHEN verdict = 'Exited' THEN change >= 0
        WHEN verdict IN ('Entered', 'EnteredContinued', 'EnteredOverOpen', 'ExitedUnstarted', 'ExitedLate')
            THEN change <= 0
        ELSE change = 0 END)
    /*sqlite , PRIMARY KEY (journal, place), UNIQUE (journal, gate, number) */
) /*pg*/ PARTITION BY RANGE (day) /*end*/;

CREATE INDEX touches_day ON touches (day, journal);
CREATE INDEX touches_card ON touches (journal, card, place);

/*pg*/
CREATE TABLE touches_other (LIKE touches INCLUDING CONSTRAINTS, PRIMARY KEY (journal, place), UNIQUE (journal, gate, number));
ALTER TABLE touches ATTACH PARTITION touches_other DEFAULT;
/*end*/

CREATE TABLE balances (
    journal integer NOT NULL REFERENCES journals,
    stage text NOT NULL CHECK (stage IN ('loaded', 'checked', 'detached')),
    card bigint NOT NULL,
    place integer NOT NULL,
    state text NOT NULL CHECK (state IN ('inside', 'outside')),
    balance bigint NOT NULL,
    transferred bigint NOT NULL,
    paid_in bigint NOT NULL,
    charged bigint NOT NULL,
    travel_moment /*pg*/ timestamp with time zone /*end*/ /*sqlite text */,
    travel_day /*pg*/ date /*end*/ /*sqlite text */,
    PRIMARY KEY (journal, stage, card),
    CHECK (balance = transferred + paid_in - charged)
);

CREATE TABLE detached_months (
    month /*pg*/ date /*end*/ /*sqlite text */ PRIMARY KEY
);

DROP VIEW IF EXISTS violations;
DROP VIEW IF EXISTS transfers;
DROP VIEW IF EXISTS last_loads;
DROP VIEW IF EXISTS held;
DROP VIEW IF EXISTS history;

/*pg*/
CREATE OR REPLACE FUNCTION make_month(a_day date) RETURNS void LANGUAGE plpgsql SECURITY DEFINER
    SET search_path FROM CURRENT AS $$
DECLARE
    first date := date_trunc('month', a_day);
    later date := first + interval '1 month';
    name text := 'touches_' || to_char(first, 'YYYY_MM');
BEGIN
    IF to_regclass(name) IS NULL THEN
        LOCK TABLE touches IN SHARE UPDATE EXCLUSIVE MODE;
    END IF;
    IF to_regclass(name) IS NULL THEN
        EXECUTE format('CREATE TABLE %I (LIKE touches INCLUDING CONSTRAINTS, CHECK (day >= %L AND day < %L),'
                       ' PRIMARY KEY (journal, place), UNIQUE (journal, gate, number))', name, first, later);
        EXECUTE format('WITH moved AS (DELETE FROM touches_other WHERE day >= %L AND day < %L RETURNING *)'
                       ' INSERT INTO %I SELECT * FROM moved', first, later, name);
        EXECUTE format('ALTER TABLE touches ATTACH PARTITION %I FOR VALUES FROM (%L) TO (%L)', name, first, later);
    END IF;
END $$;
/*end*/

CREATE VIEW history AS
SELECT servers.station, servers.name AS server, servers.first_card, journals.closed, touches.journal, place, moment, day,
       gate, number, first_card + card - 1 AS card, card AS server_card, act, station_number, pence, verdict, change,
       balance,
       verdict IN ('Entered', 'EnteredContinued', 'EnteredOverOpen', 'Exited', 'ExitedUnstarted', 'ExitedLate',
                   'ToppedUp', 'Issued', 'Revised') AS accepted,
       act = 'top-up' AND gate = transfer_gate AS transfer,
       /*pg*/ date_bin('15 minutes', moment, TIMESTAMPTZ '1970-01-01 00:00:00Z') AS quarter,
       extract(epoch FROM moment)::bigint AS seconds /*end*/
       /*sqlite strftime('%Y-%m-%dT%H:%M:%SZ', strftime('%s', moment) / 900 * 900, 'unixepoch') AS quarter,
       CAST(strftime('%s', moment) AS integer) AS seconds */
FROM touches
JOIN journals ON journals.journal = touches.journal
JOIN servers ON servers.name = journals.server;

CREATE VIEW held AS
SELECT station, server, first_card, first_card + card - 1 AS card, card AS server_card, state, balance, transferred,
       paid_in, charged
FROM balances
JOIN journals ON journals.journal = balances.journal
JOIN servers ON servers.name = journals.server
WHERE stage = 'loaded' AND NOT closed;

CREATE VIEW last_loads AS
SELECT servers.station, servers.name AS server, journals.name AS journal, touches.moment AS last_touch,
       /*pg*/ loaded /*end*/ /*sqlite strftime('%Y-%m-%dT%H:%M:%SZ', loaded) */ AS loaded
FROM servers
LEFT JOIN journals ON journals.server = servers.name AND NOT closed
LEFT JOIN touches ON touches.journal = journals.journal AND touches.place = journals.touches - 1;

CREATE VIEW transfers AS
SELECT server, name AS journal, following AS followed_by, held, transferred, held - transferred AS difference
FROM (SELECT old.server, old.name, new.name AS following,
             (SELECT coalesce(sum(balance), 0) FROM balances WHERE journal = old.journal AND stage = 'loaded') AS held,
             (SELECT coalesce(sum(transferred), 0) FROM balances WHERE journal = new.journal AND stage = 'loaded')
                 AS transferred
      FROM journals AS old
      JOIN journals AS new ON new.journal = (SELECT min(next.journal) FROM journals AS next
                                             WHERE next.server = old.server AND next.journal > old.journal)
      WHERE old.closed) AS pairs;
