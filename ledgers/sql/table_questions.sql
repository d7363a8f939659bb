-- Questions that know the fare table, in words that SQLite and PostgreSQL share: each row is a
-- fault of the ledger under that table. They read the tables that `omny_tools table --sql` writes.
-- They know one fare table without caps: under several, each valid from a date, or under caps
-- beside `window`, they find right lines, too. What transfers cost they do not ask.
-- The days of the books are to be those of the table's zone (ledgers/sql/load LEDGER BOOKS ZONE).

SELECT 'must be empty: a validator with another mode than the table''s' AS question;
SELECT v.validator, v.mode FROM (SELECT DISTINCT validator, mode FROM line) AS v
  LEFT JOIN ranges ON v.validator BETWEEN first_validator AND last_validator
  WHERE coalesce(v.mode, '') <> coalesce(ranges.mode, '') ORDER BY v.validator LIMIT 10;

-- What is left of the ceiling counts the cents that the window's earlier rides and their transfers
-- have in the ledger.
SELECT 'must be empty: a ride with other cents or another reason than its class gives' AS question;
SELECT token, line, cents, reason FROM (
    SELECT l.token, l.line, l.cents, l.reason, l.ride, f.fare, c.rides,
           c.ceiling - l.earlier_cents AS rest
      FROM (SELECT token, line, mode, answer, cents, reason, ride,
                   coalesce(sum(cents) OVER (PARTITION BY token, window_start ORDER BY line
                            ROWS BETWEEN UNBOUNDED PRECEDING AND 1 PRECEDING), 0) AS earlier_cents
              FROM line WHERE window_start IS NOT NULL) AS l
      LEFT JOIN riders AS r ON r.token = l.token
      JOIN classes AS c
           ON c.name = coalesce(r.class, (SELECT name FROM classes WHERE is_default = 1))
      LEFT JOIN fares AS f ON f.class = c.name AND f.mode = l.mode
      WHERE l.answer <> 'transfer' AND l.reason <> 'ride-limit') AS charged
  WHERE ride IS NULL OR ride > rides OR fare IS NULL
     OR cents <> CASE WHEN rest <= 0 THEN 0 WHEN rest < fare THEN rest ELSE fare END
     OR reason <> CASE WHEN rest <= 0 THEN 'ceiling' WHEN rest < fare THEN 'ceiling-cut'
                       ELSE 'full' END
  ORDER BY token, line LIMIT 10;

SELECT 'must be empty: a window with rides past the limit that has not the limit' AS question;
SELECT w.token, w.window_start FROM (
    SELECT token, window_start, coalesce(max(ride), 0) AS counted FROM line
      WHERE answer IN ('paid', 'capped') GROUP BY token, window_start
      HAVING count(CASE reason WHEN 'ride-limit' THEN 1 END) > 0) AS w
  LEFT JOIN riders AS r ON r.token = w.token
  JOIN classes AS c ON c.name = coalesce(r.class, (SELECT name FROM classes WHERE is_default = 1))
  WHERE w.counted <> c.rides ORDER BY w.token, w.window_start LIMIT 10;

SELECT 'must be empty: a transfer between modes without a pair' AS question;
SELECT t.token, t.line, t.last_mode, t.mode FROM live_taps AS t
  LEFT JOIN pairs AS p ON p.from_mode = t.last_mode AND p.to_mode = t.mode
  WHERE t.answer = 'transfer' AND p.to_mode IS NULL ORDER BY t.token, t.line LIMIT 10;

SELECT 'must be empty: a ride with more transfers than its class gives' AS question;
SELECT t.token, t.ride_line, max(t.given) + 1 AS given FROM live_taps AS t
  LEFT JOIN riders AS r ON r.token = t.token
  JOIN classes AS c ON c.name = coalesce(r.class, (SELECT name FROM classes WHERE is_default = 1))
  WHERE t.answer = 'transfer' AND t.given >= c.transfers
  GROUP BY t.token, t.ride_line ORDER BY t.token, t.ride_line LIMIT 10;

SELECT 'must be empty: a transfer later after its ride than its class gives' AS question;
SELECT t.token, t.line, t.ride_ms FROM live_taps AS t
  LEFT JOIN riders AS r ON r.token = t.token
  JOIN classes AS c ON c.name = coalesce(r.class, (SELECT name FROM classes WHERE is_default = 1))
  WHERE t.answer = 'transfer' AND t.ride_ms > c.transfer_ms ORDER BY t.token, t.line LIMIT 10;

SELECT 'must be empty: a ride that should be a transfer' AS question;
SELECT t.token, t.line, t.answer FROM live_taps AS t
  LEFT JOIN riders AS r ON r.token = t.token
  JOIN classes AS c ON c.name = coalesce(r.class, (SELECT name FROM classes WHERE is_default = 1))
  JOIN pairs AS p ON p.from_mode = t.last_mode AND p.to_mode = t.mode
  WHERE t.answer <> 'transfer' AND t.given < c.transfers AND t.ride_ms <= c.transfer_ms
  ORDER BY t.token, t.line LIMIT 10;

-- A window of some days has them whole. Under a zone it ends as a day starts: up to a day earlier, an
-- hour more or less if the clocks change. A calendar window ends within its most days.
SELECT 'must be empty: a window of another length than the table gives' AS question;
SELECT r.token, r.line FROM rides AS r JOIN window_span AS w
  ON r.ms > w.most_days * 86400000
            + CASE WHEN EXISTS (SELECT 1 FROM zone) THEN 3600000 ELSE 0 END
  OR r.ms < CASE WHEN w.unit LIKE 'calendar %' THEN 1
                 WHEN EXISTS (SELECT 1 FROM zone) THEN (w.most_days - 1) * 86400000 - 3600000
                 ELSE w.most_days * 86400000 END
  ORDER BY r.token, r.line LIMIT 10;

-- Under a zone, or in UTC if windows are those of the calendar, unless days start at another time.
SELECT 'must be empty: a day whose windows do not end at one midnight' AS question;
SELECT day, count(DISTINCT window_end) AS ends FROM rides
  WHERE moment = window_start
    AND (EXISTS (SELECT 1 FROM zone) OR EXISTS (SELECT 1 FROM window_span WHERE unit <> 'days'))
    AND NOT EXISTS (SELECT 1 FROM window_span WHERE unit LIKE '% from %')
  GROUP BY day HAVING count(DISTINCT window_end) > 1 ORDER BY day LIMIT 10;
