-- Loads what settle printed into the invoicing database (PostgreSQL 15 or later). settle tells a failed read or write on
-- standard error alone, so that has to be empty:
--
--     settle < july.csv > july.out 2> july.err
--     test ! -s july.err && psql -q -1 -v ON_ERROR_STOP=1 -f load.postgres.sql invoicing < july.out
--
-- A run is loaded whole or not at all (-1: in one transaction). One with a line `refused,number,place` is not loaded: a
-- month of it is missing, and with that month corrected, the credits held in the months after it may be others, and so
-- what they bill. Where the correction followed in the same run, the office looks at the line and then takes it out:
--
--     grep '^refused' held.out
--     grep -v '^refused' held.out | psql -q -1 -v ON_ERROR_STOP=1 -f load.postgres.sql invoicing
--
-- A month that is there already is not loaded again, so that nobody is billed twice.
SET client_min_messages = warning;

CREATE TABLE IF NOT EXISTS settled (
    month integer NOT NULL CHECK (month BETWEEN 200001 AND 209912),
    payee text NOT NULL CHECK (payee ~ '^([1-9][0-9]*|ons|held)$'),
    "user" integer NOT NULL CHECK ("user" BETWEEN 1 AND 512),
    cents bigint NOT NULL CHECK (payee <> 'held' OR cents >= 0),
    PRIMARY KEY (month, payee, "user")
);

-- What is billed, and its totals. A held credit is not billed: the next month takes it up.
CREATE OR REPLACE VIEW billed AS SELECT month, payee, "user", cents FROM settled WHERE payee <> 'held';
CREATE OR REPLACE VIEW held AS SELECT month, "user", cents FROM settled WHERE payee = 'held';
CREATE OR REPLACE VIEW by_payee AS SELECT month, payee, sum(cents) AS cents FROM billed GROUP BY month, payee;
CREATE OR REPLACE VIEW by_user AS SELECT month, "user", sum(cents) AS cents FROM billed GROUP BY month, "user";

-- COPY stops at names that are not these, and at a line that has not these columns, as a refusal.
CREATE TEMP TABLE printed (month integer, payee text, "user" integer, cents bigint) ON COMMIT DROP;
\copy printed FROM pstdin WITH (FORMAT csv, HEADER match)
INSERT INTO settled TABLE printed;

-- A month is whole if every payee, and `held`, has a line for each user; an output that was cut misses some.
CREATE TEMP TABLE whole (month integer, lines bigint, wanted bigint, CONSTRAINT lines_are_missing CHECK (lines = wanted))
    ON COMMIT DROP;
INSERT INTO whole
    SELECT month, count(*), count(DISTINCT "user") * (2 + max(CASE WHEN payee ~ '^[0-9]' THEN payee::integer ELSE 0 END))
    FROM printed GROUP BY month;
INSERT INTO whole SELECT NULL, count(*), greatest(count(*), 1) FROM printed;
