-- SPDX-License-Identifier: Apache-2.0
-- The queries of bovtrila-network-query, in SQL that PostgreSQL and SQLite share; what a comment that begins with sqlite has
-- is for SQLite alone, and what is between the marks pg and end for PostgreSQL. Each has a name, what it says, the indexes
-- of network/schema.sql that it goes by, and its parameters as :card, :first and :last (fare days) and :day_before (a
-- moment).

-- name: held
-- What a card of the network holds, on each server whose accounts have it. The balance is transferred and paid_in less
-- charged.
-- indexes: balances_pkey
SELECT card, station, server, server_card, state, balance, transferred, paid_in, charged
FROM held
WHERE server_card = :card - first_card + 1
ORDER BY server;

-- name: holdings
-- What each card of the network holds on all its servers together, and on how many of them it is inside.
-- indexes:
SELECT card, count(*) AS servers, sum(CASE state WHEN 'inside' THEN 1 ELSE 0 END) AS inside, sum(balance) AS balance,
       sum(transferred) AS transferred, sum(paid_in) AS paid_in, sum(charged) AS charged
FROM held
GROUP BY card
ORDER BY card;

-- name: journeys
-- The journeys that began, what was paid in, what was transferred from the journal before, and what was taken, less what
-- was given back, by station and quarter of an hour.
-- indexes: touches_day
SELECT station, quarter, sum(CASE WHEN verdict IN ('Entered', 'EnteredOverOpen') THEN 1 ELSE 0 END) AS journeys,
       sum(CASE WHEN act = 'top-up' AND NOT transfer THEN change ELSE 0 END) AS paid_in,
       sum(CASE WHEN transfer THEN change ELSE 0 END) AS transferred,
       -sum(CASE WHEN act IN ('in', 'out') THEN change ELSE 0 END) AS taken
FROM history
WHERE day BETWEEN :first AND :last AND accepted AND act <> 'revision'
GROUP BY station, quarter
ORDER BY station, quarter;

-- name: refusals
-- The touches that were refused, by gate and verdict.
-- indexes: touches_day
SELECT station, server, gate, verdict, count(*) AS touches
FROM history
WHERE day BETWEEN :first AND :last AND NOT accepted
GROUP BY station, server, gate, verdict
ORDER BY station, server, gate, verdict;

-- name: maxima
-- The journeys that cost a maximum, by the touch that tells it (docs/audit/AUDIT.md, "The report of a day"): what the touch in
-- was charged, and what the touch out.
-- indexes: touches_maxima touches_card
SELECT station, server, place, card, verdict, moment,
       CASE verdict WHEN 'ExitedUnstarted' THEN 0 ELSE -(
           SELECT entry.change FROM touches AS entry
           WHERE entry.journal = history.journal AND entry.card = history.server_card AND entry.place < history.place
               AND entry.verdict IN ('Entered', 'EnteredContinued', 'EnteredOverOpen')
           ORDER BY entry.place DESC LIMIT 1) END AS at_entry,
       CASE act WHEN 'out' THEN -change ELSE 0 END AS at_exit
FROM history
WHERE day BETWEEN :first AND :last AND verdict IN ('EnteredOverOpen', 'ExitedUnstarted', 'ExitedLate')
ORDER BY station, server, place;

-- name: inside
-- The cards that went in on a fare day from :first on, before :day_before, which is a day before the moment that is asked
-- of, and haven't come out since. A card's travel never goes back, so later touches are of these days too.
-- indexes: touches_day
SELECT station, server, card, place, moment, station_number, -change AS held_back
FROM history
WHERE day >= :first AND moment < :day_before AND NOT closed
    AND verdict IN ('Entered', 'EnteredContinued', 'EnteredOverOpen')
    AND NOT EXISTS (
        SELECT 1 FROM touches AS later
        WHERE later.day >= :first AND later.journal = history.journal AND later.card = history.server_card
            AND later.place > history.place
            AND later.verdict IN ('Entered', 'EnteredContinued', 'EnteredOverOpen', 'Exited', 'ExitedUnstarted',
                                  'ExitedLate'))
ORDER BY station, server, card;

-- name: revisions
-- Each accepted revision of the fares, and for each server whether its own fares go by that table on that day: one that
-- lacks a revision which the others have charges by another. first_day counts days since 1970-01-01.
-- indexes:
SELECT first_day, digest, station, server,
       CASE WHEN digest = in_force THEN 'has it' ELSE 'lacks it' END AS state
FROM (SELECT wanted.first_day, wanted.digest, servers.station, servers.name AS server,
             coalesce((SELECT own.digest FROM revisions AS own
                       WHERE own.journal = journals.journal AND own.verdict = 'Revised'
                           AND own.first_day <= wanted.first_day
                       ORDER BY own.first_day DESC LIMIT 1), journals.digest) AS in_force
      FROM (SELECT DISTINCT digest, first_day FROM revisions WHERE verdict = 'Revised') AS wanted
      CROSS JOIN journals
      JOIN servers ON servers.name = journals.server
      WHERE NOT closed) AS asked
ORDER BY first_day, digest, station, server;

-- name: clocks
-- The gates whose moments go back from one touch to the next: how often, and by how many seconds at most.
-- indexes: touches_day
-- If moments go back between two touches of these days, they go back at a touch between the two as well, on whatever day
-- that is. Gates whose moments never went back are therefore left out.
SELECT station, servers.name AS server, gate, count(*) AS times,
       max(/*pg*/ extract(epoch FROM before - moment)::bigint /*end*/
           /*sqlite strftime('%s', before) - strftime('%s', moment) */) AS most_seconds, min(place) AS first_place
FROM (SELECT journal, gate, place, moment, lag(moment) OVER (PARTITION BY journal, gate ORDER BY place) AS before
      FROM touches
      WHERE day BETWEEN :first AND :last AND act <> 'revision'
          AND (journal /*sqlite + 0 */, gate) IN (SELECT journal, gate FROM gates WHERE stage = 'loaded' AND times_back > 0)) AS touched
JOIN journals ON journals.journal = touched.journal
JOIN servers ON servers.name = journals.server
WHERE moment < before
GROUP BY station, servers.name, gate
ORDER BY station, servers.name, gate;

-- name: freshness
-- Each server with the moment of its last touch that was loaded, the moment of that load, and whether a touch of these fare
-- days was loaded. bovtrila-network-query ends with status 3 if one has no touches.
-- indexes: touches_day
SELECT station, server, journal, last_touch, loaded,
       CASE WHEN EXISTS (SELECT 1 FROM touches WHERE day BETWEEN :first AND :last AND act <> 'revision' AND journal /*sqlite + 0 */ IN (
                             SELECT own.journal FROM journals AS own WHERE own.server = last_loads.server))
           THEN 'has touches' ELSE 'no touches' END AS state
FROM last_loads
ORDER BY station, server;

-- name: transfers
-- Each closed journal with the one that follows it: what the cards held in the first, and what was transferred into the
-- second. They differ by amounts above a balance limit, less what cards owed.
-- indexes:
SELECT servers.station, server, journal, followed_by, held, transferred, difference
FROM transfers
JOIN servers ON servers.name = transfers.server
ORDER BY servers.station, server, journal;

-- name: fares
-- The journeys by origin and destination: how many began on these days, the sum of their single fares, and what they were
-- charged after caps.
-- indexes: journeys_day
SELECT origin, began_at.name AS origin_name, began_at.zones AS origin_zones, destination, ended_at.name AS destination_name,
       ended_at.zones AS destination_zones, sum(journeys) AS journeys,
       CASE WHEN count(fares) = count(*) THEN sum(fares) END AS fares, sum(charged) AS charged
FROM (SELECT last_table, origin, destination, count(*) AS journeys,
             CASE WHEN count(fare) = count(*) THEN sum(fare) END AS fares, sum(charged) AS charged
      FROM travel
      WHERE day BETWEEN :first AND :last AND kind = 'journey'
      GROUP BY last_table, origin, destination) AS sums
LEFT JOIN fare_stations AS began_at ON began_at.digest = last_table AND began_at.number = origin
LEFT JOIN fare_stations AS ended_at ON ended_at.digest = last_table AND ended_at.number = destination
GROUP BY origin, began_at.name, began_at.zones, destination, ended_at.name, ended_at.zones
ORDER BY origin, destination, origin_name, destination_name, origin_zones, destination_zones;

-- name: origins
-- What was charged by the station of the touch in: journeys, their single fares and charges; and the touches in and out that
-- belong to no journey, with their maxima. Touches out without a touch in have no origin. Cards that are inside aren't counted.
-- indexes: journeys_day
SELECT origin, name, zones, sum(journeys) AS journeys, CASE WHEN count(fares) = count(*) THEN sum(fares) END AS fares,
       sum(charged) AS charged, sum(incomplete) AS incomplete, sum(maxima) AS maxima
FROM (SELECT last_table, origin, sum(CASE kind WHEN 'journey' THEN 1 ELSE 0 END) AS journeys,
             CASE WHEN count(CASE WHEN kind = 'journey' AND fare IS NULL THEN 1 END) = 0
                 THEN coalesce(sum(fare), 0) END AS fares,
             sum(CASE kind WHEN 'journey' THEN charged ELSE 0 END) AS charged,
             sum(CASE kind WHEN 'journey' THEN 0 ELSE 1 END) AS incomplete,
             sum(CASE kind WHEN 'journey' THEN 0 ELSE charged END) AS maxima
      FROM travel
      WHERE day BETWEEN :first AND :last AND kind <> 'inside'
      GROUP BY last_table, origin) AS sums
LEFT JOIN fare_stations ON digest = last_table AND number = origin
GROUP BY origin, name, zones
ORDER BY coalesce(origin, 0), name, zones;

-- name: destinations
-- The same by the station of the touch out. Touches in without a touch out have no destination.
-- indexes: journeys_day
SELECT destination, name, zones, sum(journeys) AS journeys, CASE WHEN count(fares) = count(*) THEN sum(fares) END AS fares,
       sum(charged) AS charged, sum(incomplete) AS incomplete, sum(maxima) AS maxima
FROM (SELECT last_table, destination, sum(CASE kind WHEN 'journey' THEN 1 ELSE 0 END) AS journeys,
             CASE WHEN count(CASE WHEN kind = 'journey' AND fare IS NULL THEN 1 END) = 0
                 THEN coalesce(sum(fare), 0) END AS fares,
             sum(CASE kind WHEN 'journey' THEN charged ELSE 0 END) AS charged,
             sum(CASE kind WHEN 'journey' THEN 0 ELSE 1 END) AS incomplete,
             sum(CASE kind WHEN 'journey' THEN 0 ELSE charged END) AS maxima
      FROM travel
      WHERE day BETWEEN :first AND :last AND kind <> 'inside'
      GROUP BY last_table, destination) AS sums
LEFT JOIN fare_stations ON digest = last_table AND number = destination
GROUP BY destination, name, zones
ORDER BY coalesce(destination, 0), name, zones;

-- name: caps
-- The use of caps by fare day: the journeys with their single fares and charges, what the caps saved, and the cards for which
-- they saved something on that day. Journeys whose fare isn't known aren't counted.
-- indexes: journeys_day
SELECT day, sum(journeys) AS journeys, sum(fares) AS fares, sum(charged) AS charged, sum(fares) - sum(charged) AS saved,
       sum(cards) AS capped_cards
FROM (SELECT day, count(*) AS journeys, sum(fare) AS fares, sum(charged) AS charged, 0 AS cards
      FROM travel
      WHERE day BETWEEN :first AND :last AND fare IS NOT NULL
      GROUP BY day
      UNION ALL
      SELECT day, 0, 0, 0, count(*)
      FROM (SELECT DISTINCT day, journal, server_card FROM travel WHERE day BETWEEN :first AND :last AND charged < fare) AS capped
      GROUP BY day) AS sums
GROUP BY day
ORDER BY day;
