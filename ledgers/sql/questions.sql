-- The questions of an auditor, in words that SQLite and PostgreSQL share. Those from `must be
-- empty` on find lines that no fare rule gives, so each row of theirs is a fault of the ledger.

SELECT 'totals' AS question;
SELECT * FROM totals;

SELECT 'revenue by civil day and mode' AS question;
SELECT * FROM revenue ORDER BY day, mode;

SELECT 'postings by civil day and account' AS question;
SELECT day, account, count(*) AS postings, sum(cents) AS cents FROM posting GROUP BY day, account
  ORDER BY day, account;

SELECT 'riders at the cap: the ten with most free rides' AS question;
SELECT * FROM riders_at_cap ORDER BY free_rides DESC, token, window_start LIMIT 10;

SELECT 'windows: how many by rides' AS question;
SELECT rides, count(*) AS windows, sum(cents) AS cents FROM windows GROUP BY rides ORDER BY rides;

SELECT 'transfers by pair' AS question;
SELECT * FROM transfers ORDER BY from_mode, to_mode;

SELECT 'charges by reason' AS question;
SELECT reason, cents, count(*) AS lines FROM line GROUP BY reason, cents ORDER BY reason, cents;

SELECT 'stale taps: the ten validators and days with most' AS question;
SELECT * FROM stale_taps ORDER BY stale DESC, validator, day LIMIT 10;

SELECT 'unknown validators' AS question;
SELECT validator, count(*) AS taps FROM line WHERE answer = 'unknown'
  GROUP BY validator ORDER BY validator;

SELECT 'must be empty: a number is left out among a token''s lines' AS question;
SELECT token FROM line GROUP BY token HAVING max(line) <> count(*) ORDER BY token LIMIT 10;

SELECT 'must be empty: a ride outside of its window' AS question;
SELECT token, line FROM line
  WHERE answer IN ('paid', 'capped') AND (moment < window_start OR moment >= window_end)
  ORDER BY token, line LIMIT 10;

SELECT 'must be empty: a window that opens before the last one ends' AS question;
SELECT token, window_start FROM (
    SELECT token, window_start, lag(window_end) OVER (PARTITION BY token ORDER BY window_start)
           AS last_end FROM windows) AS neighbours
  WHERE window_start < last_end ORDER BY token, window_start LIMIT 10;

-- A ride past the limit has no number, and has its place among the rides of its window.
SELECT 'must be empty: a window whose rides are not numbered from 1 on' AS question;
SELECT DISTINCT token, window_start FROM (
    SELECT token, window_start, ride,
           row_number() OVER (PARTITION BY token, window_start ORDER BY line) AS place
      FROM line WHERE answer IN ('paid', 'capped')) AS rides
  WHERE ride <> place ORDER BY token, window_start LIMIT 10;

SELECT 'must be empty: a transfer without its ride' AS question;
SELECT token, line FROM transfer_ride WHERE ride_line IS NULL ORDER BY token, line LIMIT 10;

SELECT 'must be empty: a transfer that points at another ride than the last one' AS question;
SELECT t.token, t.line FROM transfer_ride AS t
  JOIN live_taps AS l ON l.token = t.token AND l.line = t.line
  WHERE t.ride_line <> l.ride_line ORDER BY t.token, t.line LIMIT 10;

SELECT 'must be empty: a ride that gives more than nine transfers' AS question;
SELECT token, ride_line FROM transfer_ride GROUP BY token, ride_line HAVING count(*) > 9
  ORDER BY token, ride_line LIMIT 10;

SELECT 'must be empty: a stale tap that is later than what it points at' AS question;
SELECT token, line FROM line WHERE answer = 'stale' AND moment > points_at
  ORDER BY token, line LIMIT 10;
