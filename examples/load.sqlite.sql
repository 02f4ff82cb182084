-- Loads what settle printed into the invoicing database. settle tells a failed read or write on standard error alone, so
-- that has to be empty:
--
--     settle < july.csv > july.out 2> july.err
--     test ! -s july.err && sqlite3 invoicing.db '.read load.sqlite.sql' < july.out
--
-- A run is loaded whole or not at all. One with a line `refused,number,place` is not loaded: a month of it is missing, and
-- with that month corrected, the credits held in the months after it may be others, and so what they bill. Where the
-- correction followed in the same run, the office looks at the line and then takes it out:
--
--     grep '^refused' held.out
--     grep -v '^refused' held.out | sqlite3 invoicing.db '.read load.sqlite.sql'
--
-- A month that is there already is not loaded again, so that nobody is billed twice.
.bail on

CREATE TABLE IF NOT EXISTS settled (
    month INTEGER NOT NULL CHECK (month BETWEEN 200001 AND 209912),
    payee TEXT NOT NULL CHECK (payee IN ('ons', 'held') OR payee GLOB '[1-9]*' AND payee NOT GLOB '*[^0-9]*'),
    user INTEGER NOT NULL CHECK (user BETWEEN 1 AND 512),
    cents INTEGER NOT NULL CHECK (typeof(cents) = 'integer' AND (payee <> 'held' OR cents >= 0)),
    PRIMARY KEY (month, payee, user)
);

-- What is billed, and its totals. A held credit is not billed: the next month takes it up.
CREATE VIEW IF NOT EXISTS billed AS SELECT month, payee, user, cents FROM settled WHERE payee <> 'held';
CREATE VIEW IF NOT EXISTS held AS SELECT month, user, cents FROM settled WHERE payee = 'held';
CREATE VIEW IF NOT EXISTS by_payee AS SELECT month, payee, sum(cents) AS cents FROM billed GROUP BY month, payee;
CREATE VIEW IF NOT EXISTS by_user AS SELECT month, user, sum(cents) AS cents FROM billed GROUP BY month, user;

BEGIN IMMEDIATE;
-- The first line names the columns of `printed`; the next statement then asks for settle's names.
.import --csv --schema temp /dev/stdin printed
CREATE TEMP TABLE refused (number TEXT, place TEXT, CONSTRAINT a_file_was_refused CHECK (number IS NULL));
INSERT INTO refused SELECT payee, user FROM temp.printed WHERE month = 'refused';
INSERT INTO settled (month, payee, user, cents) SELECT month, payee, user, cents FROM temp.printed;

-- A month is whole if every payee, and `held`, has a line for each user; an output that was cut misses some.
CREATE TEMP TABLE whole (month INTEGER, lines INTEGER, wanted INTEGER, CONSTRAINT lines_are_missing CHECK (lines = wanted));
INSERT INTO whole
    SELECT month, count(*), count(DISTINCT user) * (2 + max(CAST(payee AS INTEGER))) FROM temp.printed GROUP BY month;
INSERT INTO whole SELECT NULL, count(*), max(count(*), 1) FROM temp.printed;
COMMIT;
