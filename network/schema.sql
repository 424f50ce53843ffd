-- SPDX-License-Identifier: Apache-2.0
-- The touches of a network's servers with their replies, as their journals have them (docs/operate/NETWORK.md). The journals
-- stay the truth: whatever stands here can be dropped and loaded again.
--
-- This is PostgreSQL's text (psql -f network/schema.sql -f network/views.sql). bovtrila-network-load gives SQLite the same
-- one, without the parts between the marks pg and end, and with the contents of the comments that begin with sqlite. A
-- change here needs a migration in network/migrations, and the next version.

/*pg*/
-- All of it is in a schema of its own, beside whatever else the database has.
DO $$
BEGIN
    IF to_regnamespace('bovtrila') IS NULL THEN
        CREATE SCHEMA bovtrila;
    END IF;
END $$;
SET search_path = bovtrila, public;

CREATE TYPE act AS ENUM ('in', 'out', 'top-up', 'issue', 'revision');
-- The verdicts of docs/reference/FARES.md, in the order of their codes.
CREATE TYPE verdict AS ENUM (
    'Entered', 'EnteredContinued', 'EnteredOverOpen', 'Exited', 'ExitedUnstarted', 'ExitedLate', 'ToppedUp', 'Issued',
    'Revised', 'UnknownCard', 'AlreadyIssued', 'UnknownStation', 'Backwards', 'LowBalance', 'BadAmount', 'OverLimit',
    'BadDay');
/*end*/

-- The version of these tables, in one row.
CREATE TABLE schema_version (
    version integer NOT NULL
);
INSERT INTO schema_version (version) VALUES (5);

CREATE TABLE stations (
    name text PRIMARY KEY CHECK (name <> '')
);

-- Card c of a server is card first_card + c - 1 of the network.
CREATE TABLE servers (
    name text PRIMARY KEY CHECK (name <> ''),
    station text NOT NULL REFERENCES stations,
    first_card bigint NOT NULL CHECK (first_card >= 1)
);

-- The fare tables, byte for byte, by the SHA-256 digest that journals and revisions name.
CREATE TABLE fare_tables (
    digest text PRIMARY KEY,
    content /*pg*/ bytea /*end*/ /*sqlite blob */ NOT NULL,
    CHECK (/*pg*/ digest = encode(sha256(content), 'hex') /*end*/ /*sqlite length(digest) = 64 */)
);

-- The stations of each fare table that Python can read. zones is '2', or '2/3' of a station in two zones.
CREATE TABLE fare_stations (
    digest text NOT NULL REFERENCES fare_tables,
    number integer NOT NULL CHECK (number BETWEEN 1 AND 65535),
    name text NOT NULL CHECK (name <> ''),
    zones text NOT NULL CHECK (zones <> ''),
    PRIMARY KEY (digest, number)
);

-- digest is that of the first fare table, touches how many were loaded, and seal the digest of their bytes and the
-- header's (docs/audit/AUDIT.md, "A seal"). A closed journal is one that another follows: its balances were transferred there,
-- by top-ups of the gate transfer_gate of the new journal. The first `checked` touches were checked by
-- bovtrila-network-check, and `base` is the place that a check of everything begins with, above 0 after
-- bovtrila-network-detach. last_table is the fare table of the last accepted revision, or the first one.
CREATE TABLE journals (
    journal integer /*pg*/ GENERATED ALWAYS AS IDENTITY /*end*/ PRIMARY KEY,
    server text NOT NULL REFERENCES servers,
    name text NOT NULL CHECK (name <> ''),
    version smallint NOT NULL CHECK (version IN (1, 2)),
    capacity integer NOT NULL CHECK (capacity BETWEEN 1 AND 1000000),
    cards integer NOT NULL CHECK (cards BETWEEN 1 AND 100000),
    digest text NOT NULL REFERENCES fare_tables,
    touches integer NOT NULL,
    seal text NOT NULL CHECK (length(seal) = 64),
    closed boolean NOT NULL DEFAULT false,
    loaded timestamp /*pg*/ with time zone /*end*/ NOT NULL DEFAULT CURRENT_TIMESTAMP,
    transfer_gate integer NOT NULL DEFAULT 65535 CHECK (transfer_gate BETWEEN 0 AND 65535),
    checked integer NOT NULL DEFAULT 0,
    base integer NOT NULL DEFAULT 0,
    last_table text REFERENCES fare_tables,
    CHECK (touches BETWEEN 0 AND capacity),
    UNIQUE (server, name)
);

-- A server has one journal that isn't closed: the one whose balances count.
CREATE UNIQUE INDEX journals_open ON journals (server) WHERE NOT closed;

-- first_day is the first fare day of the table, in days since 1970-01-01: a revision may name days that no calendar has.
CREATE TABLE revisions (
    journal integer NOT NULL REFERENCES journals,
    place integer NOT NULL,
    digest text NOT NULL REFERENCES fare_tables,
    first_day integer NOT NULL,
    verdict /*pg*/ verdict /*end*/ /*sqlite text */ NOT NULL CHECK (verdict IN ('Revised', 'BadDay')),
    PRIMARY KEY (journal, place)
);

-- A row for each touch, with its reply. day is the fare day; of a revision, which is of no fare day, the UTC date of its
-- moment, and its card is 0. station_number is the number that the fare tables give the station where the card was touched.
CREATE TABLE touches (
    journal integer NOT NULL REFERENCES journals,
    place integer NOT NULL CHECK (place >= 0),
    moment /*pg*/ timestamp with time zone /*end*/ /*sqlite text */ NOT NULL,
    day /*pg*/ date /*end*/ /*sqlite text */ NOT NULL,
    gate integer NOT NULL CHECK (gate BETWEEN 0 AND 65535),
    number bigint NOT NULL CHECK (number BETWEEN 0 AND 4294967295),
    card bigint NOT NULL CHECK (card BETWEEN 0 AND 4294967295),
    act /*pg*/ act /*end*/ /*sqlite text */ NOT NULL,
    station_number integer CHECK (station_number BETWEEN 0 AND 65535),
    pence bigint CHECK (pence BETWEEN 0 AND 4294967295),
    verdict /*pg*/ verdict /*end*/ /*sqlite text */ NOT NULL,
    change integer NOT NULL,
    balance bigint NOT NULL,
    CONSTRAINT touches_fields CHECK (
        (station_number IS NOT NULL) = (act IN ('in', 'out')) AND (pence IS NOT NULL) = (act = 'top-up')),
    CONSTRAINT touches_verdict CHECK (CASE act
        WHEN 'in' THEN verdict IN ('Entered', 'EnteredContinued', 'EnteredOverOpen', 'UnknownCard', 'UnknownStation',
                                   'Backwards', 'LowBalance')
        WHEN 'out' THEN verdict IN ('Exited', 'ExitedUnstarted', 'ExitedLate', 'UnknownCard', 'UnknownStation',
                                    'Backwards')
        WHEN 'top-up' THEN verdict IN ('ToppedUp', 'UnknownCard', 'BadAmount', 'OverLimit')
        WHEN 'issue' THEN verdict IN ('Issued', 'UnknownCard', 'AlreadyIssued')
        WHEN 'revision' THEN verdict IN ('Revised', 'BadDay')
        ELSE false END),
    -- A refused touch changes nothing; an issue and a revision don't either, and a revision is of no card.
    CONSTRAINT touches_change CHECK (CASE
        WHEN act = 'revision' THEN change = 0 AND balance = 0
        WHEN verdict = 'ToppedUp' THEN change = pence
        WHEN verdict = 'Exited' THEN change >= 0
        WHEN verdict IN ('Entered', 'EnteredContinued', 'EnteredOverOpen', 'ExitedUnstarted', 'ExitedLate')
            THEN change <= 0
        ELSE change = 0 END)
    /*sqlite , PRIMARY KEY (journal, place), UNIQUE (journal, gate, number) */
) /*pg*/ PARTITION BY RANGE (day) /*end*/;

-- For the queries journeys, refusals, clocks, inside and freshness, and for bovtrila-network-report: the touches of some
-- fare days.
CREATE INDEX touches_day ON touches (day, journal);
-- For the query maxima: the touches of a card in their order.
CREATE INDEX touches_card ON touches (journal, card, place);
-- For the query maxima: its touches of some fare days, and no others.
CREATE INDEX touches_maxima ON touches (day) WHERE verdict IN ('EnteredOverOpen', 'ExitedUnstarted', 'ExitedLate');

/*pg*/
-- The touches of days far from those of their load, as a gate with a wrong clock makes them: such a day makes no partition.
CREATE TABLE touches_other (LIKE touches INCLUDING CONSTRAINTS, PRIMARY KEY (journal, place), UNIQUE (journal, gate, number));
ALTER TABLE touches ATTACH PARTITION touches_other DEFAULT;
/*end*/

-- What each issued card of a journal holds after a number of its touches: after those that were `loaded`, those that were
-- `checked`, and those before the journal's `base` (`detached`). place is that of its last accepted touch, and the last two
-- columns have its last accepted touch in or out. balance is transferred and paid_in less charged.
CREATE TABLE balances (
    journal integer NOT NULL REFERENCES journals,
    stage text NOT NULL CHECK (stage IN ('loaded', 'checked', 'detached')),
    card bigint NOT NULL,
    place integer NOT NULL,
    state text NOT NULL CHECK (state IN ('inside', 'outside')),
    balance bigint NOT NULL,
    transferred bigint NOT NULL,
    paid_in bigint NOT NULL,
    charged bigint NOT NULL,
    travel_moment /*pg*/ timestamp with time zone /*end*/ /*sqlite text */,
    travel_day /*pg*/ date /*end*/ /*sqlite text */,
    PRIMARY KEY (journal, stage, card),
    CHECK (balance = transferred + paid_in - charged)
);

-- Each gate of a journal after a number of its touches, by the stages of `balances`: the moment of its last touch, and how
-- often the moment of a touch was before that of the gate's touch before. The query clocks reads the touches of those gates
-- alone whose moments ever went back.
CREATE TABLE gates (
    journal integer NOT NULL REFERENCES journals,
    stage text NOT NULL CHECK (stage IN ('loaded', 'checked', 'detached')),
    gate integer NOT NULL CHECK (gate BETWEEN 0 AND 65535),
    moment /*pg*/ timestamp with time zone /*end*/ /*sqlite text */ NOT NULL,
    times_back integer NOT NULL CHECK (times_back >= 0),
    PRIMARY KEY (journal, stage, gate)
);

-- The months whose partitions bovtrila-network-detach has detached, each by its first day.
CREATE TABLE detached_months (
    month /*pg*/ date /*end*/ /*sqlite text */ PRIMARY KEY
);

-- What each touch in or out of a card was charged for (docs/operate/NETWORK.md, "Journeys"). Each is of one row: a journey; a touch in
-- that was unfinished, because another touch in followed; a touch in with a touch out that was late; or a touch out that was
-- unstarted. place is that of the row's first touch, and day that touch's fare day. settled is the place of the touch since
-- which no touch can change the row. charged is less what was given back.
CREATE TABLE journeys (
    journal integer NOT NULL REFERENCES journals,
    settled integer NOT NULL CHECK (settled >= place),
    place integer NOT NULL CHECK (place >= 0),
    kind text NOT NULL CHECK (kind IN ('journey', 'unfinished', 'late', 'unstarted')),
    card bigint NOT NULL,
    day /*pg*/ date /*end*/ /*sqlite text */ NOT NULL,
    began /*pg*/ timestamp with time zone /*end*/ /*sqlite text */,
    ended /*pg*/ timestamp with time zone /*end*/ /*sqlite text */,
    origin integer,
    destination integer,
    legs integer NOT NULL CHECK (legs >= 0),
    changes text,
    band text CHECK (band IN ('peak', 'off-peak')),
    fare integer CHECK (fare > 0),
    charged integer NOT NULL CHECK (charged >= 0),
    CONSTRAINT journeys_fields CHECK (
        (kind = 'journey') = (legs > 0) AND (changes IS NOT NULL) = (legs > 1) AND (fare IS NULL OR kind = 'journey')
        AND (began IS NULL) = (kind = 'unstarted') AND (origin IS NULL) = (kind = 'unstarted')
        AND (ended IS NULL) = (kind = 'unfinished') AND (destination IS NULL) = (kind = 'unfinished')),
    -- Caps make a journey cheaper, and never dearer.
    CONSTRAINT journeys_charged CHECK (fare IS NULL OR charged <= fare)
    /*sqlite , PRIMARY KEY (journal, settled, place) */
) /*pg*/ PARTITION BY RANGE (day) /*end*/;

-- For the queries fares, origins, destinations and caps: the rows of some fare days.
CREATE INDEX journeys_day ON journeys (day);

/*pg*/
-- The journeys of days whose month has no partition.
CREATE TABLE journeys_other (LIKE journeys INCLUDING CONSTRAINTS, PRIMARY KEY (journal, settled, place));
ALTER TABLE journeys ATTACH PARTITION journeys_other DEFAULT;
/*end*/

-- What a card's next touch may still change, by the stages of `balances`: the card's last journey, if it may be continued, and
-- the touch in of a card that is inside. The columns are those of `journeys`.
CREATE TABLE last_journeys (
    journal integer NOT NULL REFERENCES journals,
    stage text NOT NULL CHECK (stage IN ('loaded', 'checked', 'detached')),
    place integer NOT NULL,
    kind text NOT NULL CHECK (kind IN ('journey', 'inside')),
    card bigint NOT NULL,
    day /*pg*/ date /*end*/ /*sqlite text */ NOT NULL,
    began /*pg*/ timestamp with time zone /*end*/ /*sqlite text */ NOT NULL,
    ended /*pg*/ timestamp with time zone /*end*/ /*sqlite text */,
    origin integer NOT NULL,
    destination integer,
    legs integer NOT NULL,
    changes text,
    band text CHECK (band IN ('peak', 'off-peak')),
    fare integer,
    charged integer NOT NULL,
    PRIMARY KEY (journal, stage, card, place)
);
