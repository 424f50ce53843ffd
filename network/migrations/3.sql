-- SPDX-License-Identifier: Apache-2.0
-- From version 2: the gates whose moments went back, and the touches that tell of a maximum.
CREATE INDEX touches_maxima ON touches (day) WHERE verdict IN ('EnteredOverOpen', 'ExitedUnstarted', 'ExitedLate');
CREATE TABLE gates (
    journal integer NOT NULL REFERENCES journals,
    stage text NOT NULL CHECK (stage IN ('loaded', 'checked', 'detached')),
    gate integer NOT NULL CHECK (gate BETWEEN 0 AND 65535),
    moment /*pg*/ timestamp with time zone /*end*/ /*sqlite text */ NOT NULL,
    times_back integer NOT NULL CHECK (times_back >= 0),
    PRIMARY KEY (journal, stage, gate)
);
