-- SPDX-License-Identifier: Apache-2.0
-- From version 1: balances by card, the default partition, transfers, and what was checked and detached.
/*pg*/
DROP VIEW violations, held, history;
DROP FUNCTION make_month(date);
/*end*/
/*sqlite
DROP VIEW violations;
DROP VIEW held;
DROP VIEW history; */
CREATE TABLE schema_version (
    version integer NOT NULL
);
INSERT INTO schema_version (version) VALUES (1);
ALTER TABLE journals ADD COLUMN transfer_gate integer NOT NULL DEFAULT 65535 CHECK (transfer_gate BETWEEN 0 AND 65535);
ALTER TABLE journals ADD COLUMN checked integer NOT NULL DEFAULT 0;
ALTER TABLE journals ADD COLUMN base integer NOT NULL DEFAULT 0;
DROP INDEX touches_day;
CREATE INDEX touches_day ON touches (day, journal);
/*pg*/
CREATE TABLE touches_other (LIKE touches INCLUDING CONSTRAINTS, PRIMARY KEY (journal, place), UNIQUE (journal, gate, number));
ALTER TABLE touches ATTACH PARTITION touches_other DEFAULT;
/*end*/
CREATE TABLE balances (
    journal integer NOT NULL REFERENCES journals,
    stage text NOT NULL CHECK (stage IN ('loaded', 'checked', 'detached')),
    card bigint NOT NULL,
    place integer NOT NULL,
    state text NOT NULL CHECK (state IN ('inside', 'outside')),
    balance bigint NOT NULL,
    transferred bigint NOT NULL,
    paid_in bigint NOT NULL,
    charged bigint NOT NULL,
    travel_moment /*pg*/ timestamp with time zone /*end*/ /*sqlite text */,
    travel_day /*pg*/ date /*end*/ /*sqlite text */,
    PRIMARY KEY (journal, stage, card),
    CHECK (balance = transferred + paid_in - charged)
);
CREATE TABLE detached_months (
    month /*pg*/ date /*end*/ /*sqlite text */ PRIMARY KEY
);
