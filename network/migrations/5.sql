-- SPDX-License-Identifier: Apache-2.0
-- From version 4: the stations of the fare tables, and the journeys.
CREATE TABLE fare_stations (
    digest text NOT NULL REFERENCES fare_tables,
    number integer NOT NULL CHECK (number BETWEEN 1 AND 65535),
    name text NOT NULL CHECK (name <> ''),
    zones text NOT NULL CHECK (zones <> ''),
    PRIMARY KEY (digest, number)
);
ALTER TABLE journals ADD COLUMN last_table text REFERENCES fare_tables;
UPDATE journals SET last_table = coalesce(
    (SELECT digest FROM revisions WHERE revisions.journal = journals.journal AND verdict = 'Revised'
     ORDER BY first_day DESC LIMIT 1), digest);
CREATE TABLE journeys (
    journal integer NOT NULL REFERENCES journals,
    settled integer NOT NULL CHECK (settled >= place),
    place integer NOT NULL CHECK (place >= 0),
    kind text NOT NULL CHECK (kind IN ('journey', 'unfinished', 'late', 'unstarted')),
    card bigint NOT NULL,
    day /*pg*/ date /*end*/ /*sqlite text */ NOT NULL,
    began /*pg*/ timestamp with time zone /*end*/ /*sqlite text */,
    ended /*pg*/ timestamp with time zone /*end*/ /*sqlite text */,
    origin integer,
    destination integer,
    legs integer NOT NULL CHECK (legs >= 0),
    changes text,
    band text CHECK (band IN ('peak', 'off-peak')),
    fare integer CHECK (fare > 0),
    charged integer NOT NULL CHECK (charged >= 0),
    CONSTRAINT journeys_fields CHECK (
        (kind = 'journey') = (legs > 0) AND (changes IS NOT NULL) = (legs > 1) AND (fare IS NULL OR kind = 'journey')
        AND (began IS NULL) = (kind = 'unstarted') AND (origin IS NULL) = (kind = 'unstarted')
        AND (ended IS NULL) = (kind = 'unfinished') AND (destination IS NULL) = (kind = 'unfinished')),
    CONSTRAINT journeys_charged CHECK (fare IS NULL OR charged <= fare)
    /*sqlite , PRIMARY KEY (journal, settled, place) */
) /*pg*/ PARTITION BY RANGE (day) /*end*/;
CREATE INDEX journeys_day ON journeys (day);
/*pg*/
CREATE TABLE journeys_other (LIKE journeys INCLUDING CONSTRAINTS, PRIMARY KEY (journal, settled, place));
ALTER TABLE journeys ATTACH PARTITION journeys_other DEFAULT;
/*end*/
CREATE TABLE last_journeys (
    journal integer NOT NULL REFERENCES journals,
    stage text NOT NULL CHECK (stage IN ('loaded', 'checked', 'detached')),
    place integer NOT NULL,
    kind text NOT NULL CHECK (kind IN ('journey', 'inside')),
    card bigint NOT NULL,
    day /*pg*/ date /*end*/ /*sqlite text */ NOT NULL,
    began /*pg*/ timestamp with time zone /*end*/ /*sqlite text */ NOT NULL,
    ended /*pg*/ timestamp with time zone /*end*/ /*sqlite text */,
    origin integer NOT NULL,
    destination integer,
    legs integer NOT NULL,
    changes text,
    band text CHECK (band IN ('peak', 'off-peak')),
    fare integer,
    charged integer NOT NULL,
    PRIMARY KEY (journal, stage, card, place)
);
