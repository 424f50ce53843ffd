-- SPDX-License-Identifier: Apache-2.0
-- The views of version 4, and the function that makes a partition.

DROP VIEW IF EXISTS violations;
DROP VIEW IF EXISTS transfers;
DROP VIEW IF EXISTS last_loads;
DROP VIEW IF EXISTS held;
DROP VIEW IF EXISTS history;

/*pg*/
-- Makes the partition of the month of a day, where there is none. Each has keys of its own: a place, and a gate's number,
-- stand once in it. A key over all partitions would have to name the day as well, and so promise neither; the view
-- bovtrila-network-check finds what stands once in each of two months. Touches of the month that are in touches_other move there.
-- Attaching locks touches_other, so a load commits the new months before it does anything else. The function has the rights
-- of its owner: whoever loads needn't own the tables (network/roles.sql).
CREATE OR REPLACE FUNCTION make_month(a_day date) RETURNS void LANGUAGE plpgsql SECURITY DEFINER
    SET search_path = bovtrila, pg_temp AS $$
DECLARE
    first date := date_trunc('month', a_day);
    later date := first + interval '1 month';
    name text := 'touches_' || to_char(first, 'YYYY_MM');
BEGIN
    IF to_regclass(name) IS NULL THEN
        LOCK TABLE touches IN SHARE UPDATE EXCLUSIVE MODE;
    END IF;
    IF to_regclass(name) IS NULL THEN
        EXECUTE format('CREATE TABLE %I (LIKE touches INCLUDING CONSTRAINTS, CHECK (day >= %L AND day < %L),'
                       ' PRIMARY KEY (journal, place), UNIQUE (journal, gate, number))', name, first, later);
        EXECUTE format('WITH moved AS (DELETE FROM touches_other WHERE day >= %L AND day < %L RETURNING *)'
                       ' INSERT INTO %I SELECT * FROM moved', first, later, name);
        EXECUTE format('ALTER TABLE touches ATTACH PARTITION %I FOR VALUES FROM (%L) TO (%L)', name, first, later);
    END IF;
END $$;
/*end*/

-- Each touch with its server, and with what the queries below ask of it. `card` is the network's number, and server_card
-- the server's own. A transfer is a top-up by which a card's balance came from the journal before. `quarter` is the quarter of an hour in which it was, and `seconds` the moment since 1970-01-01.
CREATE VIEW history AS
SELECT servers.station, servers.name AS server, servers.first_card, journals.closed, touches.journal, place, moment, day,
       gate, number, first_card + card - 1 AS card, card AS server_card, act, station_number, pence, verdict, change,
       balance,
       verdict IN ('Entered', 'EnteredContinued', 'EnteredOverOpen', 'Exited', 'ExitedUnstarted', 'ExitedLate',
                   'ToppedUp', 'Issued', 'Revised') AS accepted,
       act = 'top-up' AND gate = transfer_gate AS transfer,
       /*pg*/ date_bin('15 minutes', moment, TIMESTAMPTZ '1970-01-01 00:00:00Z') AS quarter,
       extract(epoch FROM moment)::bigint AS seconds /*end*/
       /*sqlite substr(moment, 1, 14) || substr('00153045', 1 + 2 * (substr(moment, 15, 2) / 15), 2) || ':00Z' AS quarter,
       CAST(strftime('%s', moment) AS integer) AS seconds */
FROM touches
JOIN journals ON journals.journal = touches.journal
JOIN servers ON servers.name = journals.server;

-- What each issued card holds in its server's open journal, as the command `balances` counts it.
CREATE VIEW held AS
SELECT station, server, first_card, first_card + card - 1 AS card, card AS server_card, state, balance, transferred,
       paid_in, charged
FROM balances
JOIN journals ON journals.journal = balances.journal
JOIN servers ON servers.name = journals.server
WHERE stage = 'loaded' AND NOT closed;

-- Each server with its open journal, where it has one: the moment of the last touch that was loaded, and of the load.
CREATE VIEW last_loads AS
SELECT servers.station, servers.name AS server, journals.name AS journal, touches.moment AS last_touch,
       /*pg*/ loaded /*end*/ /*sqlite strftime('%Y-%m-%dT%H:%M:%SZ', loaded) */ AS loaded
FROM servers
LEFT JOIN journals ON journals.server = servers.name AND NOT closed
LEFT JOIN touches ON touches.journal = journals.journal AND touches.place = journals.touches - 1;

-- Each closed journal with the one that follows it: the sum of the balances in the first, and what was transferred into the
-- second. They differ by what wasn't transferred: amounts above a balance limit, less what cards owed.
CREATE VIEW transfers AS
SELECT server, name AS journal, following AS followed_by, held, transferred, held - transferred AS difference
FROM (SELECT old.server, old.name, new.name AS following,
             (SELECT coalesce(sum(balance), 0) FROM balances WHERE journal = old.journal AND stage = 'loaded') AS held,
             (SELECT coalesce(sum(transferred), 0) FROM balances WHERE journal = new.journal AND stage = 'loaded')
                 AS transferred
      FROM journals AS old
      JOIN journals AS new ON new.journal = (SELECT min(next.journal) FROM journals AS next
                                             WHERE next.server = old.server AND next.journal > old.journal)
      WHERE old.closed) AS pairs;
