-- The table of a ledger's lines for SQLite. Amounts are cents. Moments are texts in UTC, as the
-- ledger has them: they sort as they follow each other, and date functions take them. A check has
-- no `IN (..)`, whose list SQLite makes anew for each line: the load takes half as long without.
CREATE TABLE line (
  token        TEXT    NOT NULL CHECK (length(token) = 32),
  line         INTEGER NOT NULL CHECK (line >= 1),  -- the line's number among the token's lines
  moment       TEXT    NOT NULL CHECK (length(moment) = 24),
  day          TEXT    NOT NULL,                    -- civil date of the moment in the load's zone
  validator    INTEGER NOT NULL CHECK (validator BETWEEN 0 AND 4294967295),
  mode         TEXT    CHECK ((mode IS NULL) = (answer = 'unknown')),
  answer       TEXT    NOT NULL,
  cents        INTEGER NOT NULL CHECK (cents >= 0
                                       AND (cents = 0 OR answer = 'paid' OR answer = 'transfer')),
  window_start TEXT    CHECK ((window_start IS NOT NULL) = (answer = 'paid' OR answer = 'capped'
                              OR (answer = 'transfer' AND reason <> 'transfer'))),
  window_end   TEXT    CHECK ((window_end IS NOT NULL) = (window_start IS NOT NULL)),
  ride         INTEGER,                             -- the ride's place in its window, from 1
  reason       TEXT    NOT NULL,
  points_at    TEXT    CHECK ((points_at IS NOT NULL) = (answer = 'transfer' OR answer = 'stale')),
  CHECK (CASE answer WHEN 'paid' THEN reason = 'full' OR reason = 'ceiling-cut'
                                      OR (reason GLOB 'cap-cut:[a-z]*' AND length(reason) <= 24
                                          AND substr(reason, 9) NOT GLOB '*[^a-z]*')
                     WHEN 'capped' THEN reason = 'ceiling' OR reason = 'ride-limit'
                                        OR (reason GLOB 'cap:[a-z]*' AND length(reason) <= 20
                                            AND substr(reason, 5) NOT GLOB '*[^a-z]*')
                     WHEN 'transfer' THEN
                       CASE WHEN reason = 'transfer' OR reason = 'transfer-capped'
                                 OR (reason GLOB 'transfer-capped:[a-z]*' AND length(reason) <= 32
                                     AND substr(reason, 17) NOT GLOB '*[^a-z]*') THEN cents = 0
                            WHEN reason = 'transfer-fare' OR reason = 'transfer-cut'
                                 OR (reason GLOB 'transfer-cut:[a-z]*' AND length(reason) <= 29
                                     AND substr(reason, 14) NOT GLOB '*[^a-z]*') THEN cents > 0
                            ELSE 0 END
                     WHEN 'stale' THEN reason = answer
                     WHEN 'unknown' THEN reason = answer ELSE 0 END),
  PRIMARY KEY (token, line)
) WITHOUT ROWID;

-- What a traced ledger has behind each line: the class of the token, the upload of the tap, from 0,
-- and the tap's place there, from 1. Of another ledger it has no row.
CREATE TABLE trace (
  token  TEXT    NOT NULL,
  line   INTEGER NOT NULL,
  class  TEXT    NOT NULL CHECK (length(class) BETWEEN 1 AND 64
                                 AND class NOT GLOB '*[^A-Za-z0-9_-]*'),
  upload INTEGER NOT NULL CHECK (upload BETWEEN 0 AND 4294967295),
  place  INTEGER NOT NULL CHECK (typeof(place) = 'integer' AND place >= 1),
  PRIMARY KEY (token, line),
  UNIQUE (upload, place)
) WITHOUT ROWID;

-- The live taps of each token: the milliseconds since the live tap before it, its mode and answer,
-- then the milliseconds since the last ride before it, and how many transfers came since then.
CREATE VIEW live_taps AS
  SELECT token, line, mode, answer, last_mode, last_answer,
         CAST(round((julianday(moment) - julianday(last_moment)) * 86400000) AS INTEGER) AS ms,
         ride_line,
         CAST(round((julianday(moment) - julianday(ride_moment)) * 86400000) AS INTEGER) AS ride_ms,
         place - ride_place - 1 AS given
  FROM (SELECT token, line, moment, mode, answer, place, lag(moment) OVER earlier AS last_moment,
               lag(mode) OVER earlier AS last_mode, lag(answer) OVER earlier AS last_answer,
               max(CASE WHEN answer <> 'transfer' THEN line END) OVER all_earlier AS ride_line,
               max(CASE WHEN answer <> 'transfer' THEN moment END) OVER all_earlier AS ride_moment,
               max(CASE WHEN answer <> 'transfer' THEN place END) OVER all_earlier AS ride_place
          FROM (SELECT token, line, moment, mode, answer,
                       row_number() OVER (PARTITION BY token ORDER BY line) AS place
                  FROM line WHERE answer IN ('paid', 'capped', 'transfer')) AS placed
          WINDOW earlier AS (PARTITION BY token ORDER BY line),
                 all_earlier AS (PARTITION BY token ORDER BY line
                                 ROWS BETWEEN UNBOUNDED PRECEDING AND 1 PRECEDING)) AS taps;

-- The rides, and the milliseconds of their windows.
CREATE VIEW rides AS
  SELECT token, line, day, moment, window_start, window_end,
         CAST(round((julianday(window_end) - julianday(window_start)) * 86400000) AS INTEGER) AS ms
  FROM line WHERE answer IN ('paid', 'capped');
