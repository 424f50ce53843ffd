-- The touches of a network's servers with their replies, as their journals have them (docs/operate/NETWORK.md). The journals
-- stay the truth: whatever stands here can be dropped and loaded again.
--
-- This is PostgreSQL's text (psql -f network/schema.sql). bovtrila-network-load gives SQLite the same one, without what stands
-- between the marks pg and end, and with what the comments that begin with sqlite have.

/*pg*/
CREATE TYPE act AS ENUM ('in', 'out', 'top-up', 'issue', 'revision');
-- The verdicts of docs/reference/FARES.md, in the order of their codes.
CREATE TYPE verdict AS ENUM (
    'Entered', 'EnteredContinued', 'EnteredOverOpen', 'Exited', 'ExitedUnstarted', 'ExitedLate', 'ToppedUp', 'Issued',
    'Revised', 'UnknownCard', 'AlreadyIssued', 'UnknownStation', 'Backwards', 'LowBalance', 'BadAmount', 'OverLimit',
    'BadDay');
/*end*/

CREATE TABLE stations (
    name text PRIMARY KEY CHECK (name <> '')
);

-- Card c of a server is card first_card + c - 1 of the network.
CREATE TABLE servers (
    name text PRIMARY KEY CHECK (name <> ''),
    station text NOT NULL REFERENCES stations,
    first_card bigint NOT NULL CHECK (first_card >= 1)
);

-- The fare tables, byte for byte, by the SHA-256 digest that journals and revisions name.
CREATE TABLE fare_tables (
    digest text PRIMARY KEY,
    content /*pg*/ bytea /*end*/ /*sqlite blob */ NOT NULL,
    CHECK (/*pg*/ digest = encode(sha256(content), 'hex') /*end*/ /*sqlite length(digest) = 64 */)
);

-- digest is that of the first fare table, touches how many were loaded, and seal the digest of their bytes and the
-- header's (docs/audit/AUDIT.md, "A seal"). A closed journal is one that another follows: its cards were carried over there.
CREATE TABLE journals (
    journal integer /*pg*/ GENERATED ALWAYS AS IDENTITY /*end*/ PRIMARY KEY,
    server text NOT NULL REFERENCES servers,
    name text NOT NULL CHECK (name <> ''),
    version smallint NOT NULL CHECK (version IN (1, 2)),
    capacity integer NOT NULL CHECK (capacity BETWEEN 1 AND 1000000),
    cards integer NOT NULL CHECK (cards BETWEEN 1 AND 100000),
    digest text NOT NULL REFERENCES fare_tables,
    touches integer NOT NULL,
    seal text NOT NULL CHECK (length(seal) = 64),
    closed boolean NOT NULL DEFAULT false,
    loaded timestamp /*pg*/ with time zone /*end*/ NOT NULL DEFAULT CURRENT_TIMESTAMP,
    CHECK (touches BETWEEN 0 AND capacity),
    UNIQUE (server, name)
);

-- A server has one journal that isn't closed: the one whose balances count.
CREATE UNIQUE INDEX journals_open ON journals (server) WHERE NOT closed;

-- first_day is the first fare day of the table, in days since 1970-01-01: a revision may name days that no calendar has.
CREATE TABLE revisions (
    journal integer NOT NULL REFERENCES journals,
    place integer NOT NULL,
    digest text NOT NULL REFERENCES fare_tables,
    first_day integer NOT NULL,
    verdict /*pg*/ verdict /*end*/ /*sqlite text */ NOT NULL CHECK (verdict IN ('Revised', 'BadDay')),
    PRIMARY KEY (journal, place)
);

-- A row for each touch, with its reply. day is the fare day; of a revision, which is of no fare day, the UTC date of its
-- moment, and its card is 0. station_number is the number that the fare tables give the station where the card was touched.
CREATE TABLE touches (
    journal integer NOT NULL REFERENCES journals,
    place integer NOT NULL CHECK (place >= 0),
    moment /*pg*/ timestamp with time zone /*end*/ /*sqlite text */ NOT NULL,
    day /*pg*/ date /*end*/ /*sqlite text */ NOT NULL,
    gate integer NOT NULL CHECK (gate BETWEEN 0 AND 65535),
    number bigint NOT NULL CHECK (number BETWEEN 0 AND 4294967295),
    card bigint NOT NULL CHECK (card BETWEEN 0 AND 4294967295),
    act /*pg*/ act /*end*/ /*sqlite text */ NOT NULL,
    station_number integer CHECK (station_number BETWEEN 0 AND 65535),
    pence bigint CHECK (pence BETWEEN 0 AND 4294967295),
    verdict /*pg*/ verdict /*end*/ /*sqlite text */ NOT NULL,
    change integer NOT NULL,
    balance bigint NOT NULL,
    CONSTRAINT touches_fields CHECK (
        (station_number IS NOT NULL) = (act IN ('in', 'out')) AND (pence IS NOT NULL) = (act = 'top-up')),
    CONSTRAINT touches_verdict CHECK (CASE act
        WHEN 'in' THEN verdict IN ('Entered', 'EnteredContinued', 'EnteredOverOpen', 'UnknownCard', 'UnknownStation',
                                   'Backwards', 'LowBalance')
        WHEN 'out' THEN verdict IN ('Exited', 'ExitedUnstarted', 'ExitedLate', 'UnknownCard', 'UnknownStation',
                                    'Backwards')
        WHEN 'top-up' THEN verdict IN ('ToppedUp', 'UnknownCard', 'BadAmount', 'OverLimit')
        WHEN 'issue' THEN verdict IN ('Issued', 'UnknownCard', 'AlreadyIssued')
        WHEN 'revision' THEN verdict IN ('Revised', 'BadDay')
        ELSE false END),
    -- A refused touch changes nothing; an issue and a revision don't either, and a revision is of no card.
    CONSTRAINT touches_change CHECK (CASE
        WHEN act = 'revision' THEN change = 0 AND balance = 0
        WHEN verdict = 'ToppedUp' THEN change = pence
        WHEN verdict = 'Exited' THEN change >= 0
        WHEN verdict IN ('Entered', 'EnteredContinued', 'EnteredOverOpen', 'ExitedUnstarted', 'ExitedLate')
            THEN change <= 0
        ELSE change = 0 END)
    /*sqlite , PRIMARY KEY (journal, place), UNIQUE (journal, gate, number) */
) /*pg*/ PARTITION BY RANGE (day) /*end*/;

-- For the queries journeys, refusals, maxima, clocks and inside, and for bovtrila-network-report: the touches of some fare days.
CREATE INDEX touches_day ON touches (day);
-- For the queries held and maxima: the touches of a card in their order.
CREATE INDEX touches_card ON touches (journal, card, place);

/*pg*/
-- Makes the partition of the month of a day, where there is none. Each has keys of its own: a place, and a gate's number,
-- stand once in it. A key over all partitions would have to name the day as well, and so promise neither; the view
-- `violations` finds what stands once in each of two months. To attach a table holds up nobody who reads or copies;
-- another load waits with its last step, the seal, until this one has committed.
CREATE FUNCTION make_month(a_day date) RETURNS void LANGUAGE plpgsql AS $$
DECLARE
    first date := date_trunc('month', a_day);
    later date := first + interval '1 month';
    name text := 'touches_' || to_char(first, 'YYYY_MM');
BEGIN
    IF to_regclass(name) IS NULL THEN
        LOCK TABLE touches IN SHARE UPDATE EXCLUSIVE MODE;
    END IF;
    IF to_regclass(name) IS NULL THEN
        EXECUTE format('CREATE TABLE %I (LIKE touches INCLUDING CONSTRAINTS, CHECK (day >= %L AND day < %L),'
                       ' PRIMARY KEY (journal, place), UNIQUE (journal, gate, number))', name, first, later);
        EXECUTE format('ALTER TABLE touches ATTACH PARTITION %I FOR VALUES FROM (%L) TO (%L)', name, first, later);
    END IF;
END $$;
/*end*/

-- Each touch with its server, and with what the queries below ask of it. `card` is the network's number, and server_card
-- the server's own. `quarter` is the quarter of an hour in which it was, and `seconds` the moment since 1970-01-01.
CREATE VIEW history AS
SELECT servers.station, servers.name AS server, servers.first_card, journals.closed, touches.journal, place, moment, day,
       gate, number, first_card + card - 1 AS card, card AS server_card, act, station_number, pence, verdict, change,
       balance,
       verdict IN ('Entered', 'EnteredContinued', 'EnteredOverOpen', 'Exited', 'ExitedUnstarted', 'ExitedLate',
                   'ToppedUp', 'Issued', 'Revised') AS accepted,
       /*pg*/ date_bin('15 minutes', moment, TIMESTAMPTZ '1970-01-01 00:00:00Z') AS quarter,
       extract(epoch FROM moment)::bigint AS seconds /*end*/
       /*sqlite strftime('%Y-%m-%dT%H:%M:%SZ', strftime('%s', moment) / 900 * 900, 'unixepoch') AS quarter,
       CAST(strftime('%s', moment) AS integer) AS seconds */
FROM touches
JOIN journals ON journals.journal = touches.journal
JOIN servers ON servers.name = journals.server;

-- What each issued card holds in its server's open journal, as the command `balances` counts it.
CREATE VIEW held AS
SELECT station, server, first_card, card, server_card,
       CASE WHEN max(CASE WHEN act = 'in' THEN place END) > coalesce(max(CASE WHEN act = 'out' THEN place END), -1)
           THEN 'inside' ELSE 'outside' END AS state,
       sum(change) AS balance,
       sum(CASE WHEN act = 'top-up' THEN change ELSE 0 END) AS paid_in,
       -sum(CASE WHEN act IN ('in', 'out') THEN change ELSE 0 END) AS charged
FROM history
WHERE accepted AND act <> 'revision' AND NOT closed
GROUP BY station, server, first_card, card, server_card;

-- What breaks a promise of the account, or of the load, across rows; with the journal and the place where it has one. On
-- sound rows it is empty. It reads all rows.
CREATE VIEW violations AS
WITH
counted AS (
    SELECT journals.journal, journals.touches, count(place) AS rows_there
    FROM journals LEFT JOIN touches ON touches.journal = journals.journal
    GROUP BY journals.journal, journals.touches),
placed AS (
    SELECT journal, place, lag(place, 1, -1) OVER (PARTITION BY journal ORDER BY place) AS before FROM touches),
carded AS (
    SELECT touches.*, journals.cards,
           sum(change) OVER (PARTITION BY touches.journal, card ORDER BY place ROWS UNBOUNDED PRECEDING) AS due,
           count(CASE WHEN verdict = 'Issued' THEN 1 END)
               OVER (PARTITION BY touches.journal, card ORDER BY place ROWS UNBOUNDED PRECEDING) AS issues
    FROM touches JOIN journals ON journals.journal = touches.journal
    WHERE act <> 'revision'),
travelled AS (
    SELECT journal, place, verdict, moment, day, lag(act) OVER cards AS last_act,
           lag(moment) OVER cards AS last_moment, lag(day) OVER cards AS last_day
    FROM touches
    WHERE verdict IN ('Entered', 'EnteredContinued', 'EnteredOverOpen', 'Exited', 'ExitedUnstarted', 'ExitedLate')
    WINDOW cards AS (PARTITION BY journal, card ORDER BY place)),
revised AS (
    SELECT journal, place, first_day, lag(first_day) OVER (PARTITION BY journal ORDER BY place) AS last_first_day,
           (SELECT max(/*pg*/ touches.day - DATE '1970-01-01' /*end*/
                       /*sqlite CAST(julianday(touches.day) - 2440587.5 AS integer) */)
            FROM touches
            WHERE touches.journal = revisions.journal AND touches.place < revisions.place
                AND verdict IN ('Entered', 'EnteredContinued', 'EnteredOverOpen', 'Exited', 'ExitedUnstarted',
                                'ExitedLate')) AS last_travel
    FROM revisions WHERE verdict = 'Revised'),
paired AS (
    SELECT journal, place, min(side) AS sides, count(*) AS found, min(verdict) AS one, max(verdict) AS other
    FROM (SELECT journal, place, verdict, 'revision' AS side FROM revisions
          UNION ALL SELECT journal, place, verdict, 'touch' FROM touches WHERE act = 'revision') AS both_sides
    GROUP BY journal, place)
SELECT journal, CAST(NULL AS integer) AS place, 'the journal has another number of touches than was loaded' AS breach
FROM counted WHERE touches <> rows_there
UNION ALL
SELECT journal, place, 'the place stands twice' FROM touches GROUP BY journal, place HAVING count(*) > 1
UNION ALL
SELECT journal, max(place), 'the gate and number stand twice' FROM touches GROUP BY journal, gate, number HAVING count(*) > 1
UNION ALL
SELECT journal, place, 'a place before this one is missing' FROM placed WHERE place > before + 1
UNION ALL
SELECT journal, place, 'the balance is not the sum of the changes' FROM carded WHERE balance <> due
UNION ALL
SELECT journal, place, 'a card was issued that the journal has not'
FROM carded WHERE verdict = 'Issued' AND card NOT BETWEEN 1 AND cards
UNION ALL
SELECT journal, place, 'the verdict does not go with whether the card was issued' FROM carded
WHERE CASE verdict WHEN 'Issued' THEN issues <> 1 WHEN 'UnknownCard' THEN issues <> 0 ELSE issues = 0 END
UNION ALL
SELECT journal, place, 'the verdict does not go with whether the card is inside' FROM travelled
WHERE (coalesce(last_act, 'out') = 'in') <> (verdict IN ('EnteredOverOpen', 'Exited', 'ExitedLate'))
UNION ALL
SELECT journal, place, 'travel of the card goes back' FROM travelled WHERE moment < last_moment OR day < last_day
UNION ALL
SELECT journal, place, 'a revision counts from a day with travel, or not above the last one' FROM revised
WHERE first_day <= last_first_day OR first_day <= last_travel
UNION ALL
SELECT journal, place, 'a revision and its touch do not go together' FROM paired WHERE found <> 2 OR one <> other;
