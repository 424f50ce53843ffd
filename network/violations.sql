-- SPDX-License-Identifier: Apache-2.0
-- What breaks a promise of the account, or of the load, across the rows of a journal from the place :first on. :stage names
-- the rows of `balances` that have each card as it was before that place. On sound rows the answer is empty.
WITH
fresh AS (SELECT * FROM touches WHERE journal = :journal AND place >= :first),
known AS (SELECT * FROM balances WHERE journal = :journal AND stage = :stage),
counted AS (
    SELECT journals.touches - :first AS wanted, (SELECT count(*) FROM fresh) AS found
    FROM journals WHERE journal = :journal),
placed AS (SELECT place, lag(place, 1, CAST(:first AS integer) - 1) OVER (ORDER BY place) AS before FROM fresh),
carded AS (
    SELECT fresh.place, fresh.card, fresh.verdict, fresh.balance, coalesce(known.balance, 0)
               + sum(change) OVER (PARTITION BY fresh.card ORDER BY fresh.place ROWS UNBOUNDED PRECEDING) AS due,
           CASE WHEN known.card IS NULL THEN 0 ELSE 1 END + count(CASE WHEN verdict = 'Issued' THEN 1 END)
               OVER (PARTITION BY fresh.card ORDER BY fresh.place ROWS UNBOUNDED PRECEDING) AS issues
    FROM fresh LEFT JOIN known ON known.card = fresh.card
    WHERE act <> 'revision'),
travelled AS (
    SELECT fresh.place, verdict, moment, day,
           coalesce(lag(CASE act WHEN 'in' THEN 'inside' ELSE 'outside' END) OVER cards, known.state, 'outside') AS last_state,
           coalesce(lag(moment) OVER cards, travel_moment) AS last_moment,
           coalesce(lag(day) OVER cards, travel_day) AS last_day
    FROM fresh LEFT JOIN known ON known.card = fresh.card
    WHERE verdict IN ('Entered', 'EnteredContinued', 'EnteredOverOpen', 'Exited', 'ExitedUnstarted', 'ExitedLate')
    WINDOW cards AS (PARTITION BY fresh.card ORDER BY fresh.place)),
days AS (
    SELECT place, day FROM travelled
    UNION ALL SELECT CAST(:first AS integer) - 1, max(travel_day) FROM known),
revised AS (
    SELECT place, first_day, lag(first_day) OVER (ORDER BY place) AS last_first_day,
           (SELECT max(/*pg*/ day - DATE '1970-01-01' /*end*/
                       /*sqlite CAST(julianday(day) - 2440587.5 AS integer) */)
            FROM days WHERE days.place < revisions.place) AS last_travel
    FROM revisions WHERE journal = :journal AND verdict = 'Revised'),
paired AS (
    SELECT place, count(*) AS found, min(verdict) AS one, max(verdict) AS other
    FROM (SELECT place, verdict FROM revisions WHERE journal = :journal AND place >= :first
          UNION ALL SELECT place, verdict FROM fresh WHERE act = 'revision') AS both_sides
    GROUP BY place)
SELECT CAST(NULL AS integer) AS place, 'the journal has another number of touches than was loaded' AS breach
FROM counted WHERE wanted <> found
UNION ALL
SELECT place, 'the place stands twice' FROM fresh GROUP BY place HAVING count(*) > 1
UNION ALL
SELECT max(place), 'the gate and number stand twice' FROM fresh GROUP BY gate, number HAVING count(*) > 1
UNION ALL
SELECT place, 'a place before this one is missing' FROM placed WHERE place > before + 1
UNION ALL
SELECT place, 'the balance is not the sum of the changes' FROM carded WHERE balance <> due
UNION ALL
SELECT place, 'a card was issued that the journal has not' FROM carded
WHERE verdict = 'Issued' AND card NOT BETWEEN 1 AND (SELECT cards FROM journals WHERE journal = :journal)
UNION ALL
SELECT place, 'the verdict does not go with whether the card was issued' FROM carded
WHERE CASE verdict WHEN 'Issued' THEN issues <> 1 WHEN 'UnknownCard' THEN issues <> 0 ELSE issues = 0 END
UNION ALL
SELECT place, 'the verdict does not go with whether the card is inside' FROM travelled
WHERE (last_state = 'inside') <> (verdict IN ('EnteredOverOpen', 'Exited', 'ExitedLate'))
UNION ALL
SELECT place, 'travel of the card goes back' FROM travelled WHERE moment < last_moment OR day < last_day
UNION ALL
SELECT place, 'a revision counts from a day with travel, or not above the last one' FROM revised
WHERE place >= :first AND (first_day <= last_first_day OR first_day <= last_travel)
UNION ALL
SELECT place, 'a revision and its touch do not go together' FROM paired WHERE found <> 2 OR one <> other
ORDER BY 1, 2
