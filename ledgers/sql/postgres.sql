-- The same in PostgreSQL, into the schema of the search path:
--   psql -v ON_ERROR_STOP=1 -v zone=EST5EDT,M3.2.0,M11.1.0 -f postgres.sql < LEDGER
--   psql -f questions.sql
-- For a traced ledger `-v traced=1`: its last three columns go to the table `trace`.
-- Texts are compared by bytes, as SQLite does, whatever order the database has. Rows are written
-- once, already frozen, and the key is made when all are there. `ledgers/sql/run_postgres` tries it.
\set ON_ERROR_STOP 1
\if :{?zone}
\else
\set zone UTC
\endif
BEGIN;
SET LOCAL client_min_messages = warning;
CREATE TABLE line (
  token        text        COLLATE "C" NOT NULL CHECK (length(token) = 32),
  line         bigint      NOT NULL CHECK (line >= 1),
  moment       timestamptz NOT NULL,
  day          date        GENERATED ALWAYS AS ((moment AT TIME ZONE :'zone')::date) STORED,
  validator    bigint      NOT NULL CHECK (validator BETWEEN 0 AND 4294967295),
  mode         text        COLLATE "C" CHECK ((mode IS NULL) = (answer = 'unknown')),
  answer       text        COLLATE "C" NOT NULL,
  cents        bigint      NOT NULL CHECK (cents >= 0
                                           AND (cents = 0 OR answer IN ('paid', 'transfer'))),
  window_start timestamptz CHECK ((window_start IS NOT NULL) = (answer IN ('paid', 'capped')
                                  OR (answer = 'transfer' AND reason <> 'transfer'))),
  window_end   timestamptz CHECK ((window_end IS NOT NULL) = (window_start IS NOT NULL)),
  ride         bigint,
  reason       text        COLLATE "C" NOT NULL,
  points_at    timestamptz CHECK ((points_at IS NOT NULL) = (answer IN ('transfer', 'stale'))),
  CHECK (CASE answer WHEN 'paid' THEN reason IN ('full', 'ceiling-cut')
                                      OR reason ~ '^cap-cut:[a-z]{1,16}$'
                     WHEN 'capped' THEN reason IN ('ceiling', 'ride-limit')
                                        OR reason ~ '^cap:[a-z]{1,16}$'
                     WHEN 'transfer' THEN
                       CASE WHEN reason ~ '^transfer(-capped(:[a-z]{1,16})?)?$' THEN cents = 0
                            WHEN reason ~ '^transfer-(fare|cut(:[a-z]{1,16})?)$' THEN cents > 0
                            ELSE false END
                     WHEN 'stale' THEN reason = answer
                     WHEN 'unknown' THEN reason = answer ELSE false END)
);
CREATE TABLE trace (
  token  text    COLLATE "C" NOT NULL,
  line   bigint  NOT NULL,
  class  text    COLLATE "C" NOT NULL CHECK (class ~ '^[A-Za-z0-9_-]{1,64}$'),
  upload bigint  NOT NULL CHECK (upload BETWEEN 0 AND 4294967295),
  place  bigint  NOT NULL CHECK (place >= 1)
);
\if :{?traced}
CREATE TEMP TABLE both_forms (LIKE line) ON COMMIT DROP;
ALTER TABLE both_forms DROP COLUMN day, ADD COLUMN class text, ADD COLUMN upload bigint,
  ADD COLUMN place bigint;
\copy both_forms FROM pstdin WITH (FORMAT csv, HEADER match)
INSERT INTO line (token, line, moment, validator, mode, answer, cents, window_start, window_end,
                  ride, reason, points_at)
  SELECT token, line, moment, validator, mode, answer, cents, window_start, window_end,
         ride, reason, points_at FROM both_forms;
INSERT INTO trace SELECT token, line, class, upload, place FROM both_forms;
\else
\copy line FROM pstdin WITH (FORMAT csv, HEADER match, FREEZE)
\endif
ALTER TABLE line ADD PRIMARY KEY (token, line);
ALTER TABLE trace ADD PRIMARY KEY (token, line), ADD UNIQUE (upload, place);
-- the views of schema.sql
CREATE VIEW live_taps AS
  SELECT token, line, mode, answer, last_mode, last_answer,
         round(extract(epoch FROM moment - last_moment) * 1000)::bigint AS ms,
         ride_line, round(extract(epoch FROM moment - ride_moment) * 1000)::bigint AS ride_ms,
         place - ride_place - 1 AS given
  FROM (SELECT token, line, moment, mode, answer, place, lag(moment) OVER earlier AS last_moment,
               lag(mode) OVER earlier AS last_mode, lag(answer) OVER earlier AS last_answer,
               max(CASE WHEN answer <> 'transfer' THEN line END) OVER all_earlier AS ride_line,
               max(CASE WHEN answer <> 'transfer' THEN moment END) OVER all_earlier AS ride_moment,
               max(CASE WHEN answer <> 'transfer' THEN place END) OVER all_earlier AS ride_place
          FROM (SELECT token, line, moment, mode, answer,
                       row_number() OVER (PARTITION BY token ORDER BY line) AS place
                  FROM line WHERE answer IN ('paid', 'capped', 'transfer')) AS placed
          WINDOW earlier AS (PARTITION BY token ORDER BY line),
                 all_earlier AS (PARTITION BY token ORDER BY line
                                 ROWS BETWEEN UNBOUNDED PRECEDING AND 1 PRECEDING)) AS taps;
CREATE VIEW rides AS
  SELECT token, line, day, moment, window_start, window_end,
         round(extract(epoch FROM window_end - window_start) * 1000)::bigint AS ms
  FROM line WHERE answer IN ('paid', 'capped');
\ir views.sql
COMMIT;
ANALYZE line;
