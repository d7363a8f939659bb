-- Views over the lines, in words that SQLite and PostgreSQL share.

-- The sums of all lines, as the report's `totals`.
CREATE VIEW totals AS
  SELECT count(*) AS taps, count(CASE answer WHEN 'paid' THEN 1 END) AS paid,
         count(CASE answer WHEN 'transfer' THEN 1 END) AS transfers,
         count(CASE answer WHEN 'capped' THEN 1 END) AS capped,
         count(CASE answer WHEN 'stale' THEN 1 END) AS stale,
         count(CASE answer WHEN 'unknown' THEN 1 END) AS unknown, coalesce(sum(cents), 0) AS cents
  FROM line;

-- Revenue by civil day and mode. Taps at unknown validators have no mode.
CREATE VIEW revenue AS
  SELECT day, coalesce(mode, '-') AS mode, count(*) AS taps,
         count(CASE answer WHEN 'paid' THEN 1 END) AS paid,
         count(CASE answer WHEN 'transfer' THEN 1 END) AS transfers,
         count(CASE answer WHEN 'capped' THEN 1 END) AS capped,
         count(CASE answer WHEN 'stale' THEN 1 END) AS stale, sum(cents) AS cents
  FROM line GROUP BY day, coalesce(mode, '-');

-- Each window of each rider: its rides, and their cents with those of their transfers.
CREATE VIEW windows AS
  SELECT token, window_start, window_end, count(CASE WHEN answer <> 'transfer' THEN 1 END) AS rides,
         count(CASE answer WHEN 'paid' THEN 1 END) AS paid,
         count(CASE answer WHEN 'capped' THEN 1 END) AS capped, sum(cents) AS cents
  FROM line WHERE window_start IS NOT NULL GROUP BY token, window_start, window_end;

-- The windows in which a rider reached the cap, and the moment of the first free ride.
CREATE VIEW riders_at_cap AS
  SELECT token, window_start, count(*) AS free_rides, min(moment) AS first_free,
         count(CASE reason WHEN 'ceiling' THEN 1 END) AS by_ceiling,
         count(CASE reason WHEN 'ride-limit' THEN 1 END) AS by_rides
  FROM line WHERE answer = 'capped' GROUP BY token, window_start;

-- The rides and transfers that a cap beside `window` cut or freed, with its name.
CREATE VIEW cap_taps AS
  SELECT token, line, day, mode, answer, cents,
         substr(reason, CASE WHEN reason LIKE 'cap:%' THEN 5 WHEN reason LIKE 'cap-cut:%' THEN 9
                             WHEN reason LIKE 'transfer-cut:%' THEN 14 ELSE 17 END) AS cap
  FROM line WHERE reason LIKE '%:%';

-- Each transfer beside the ride that gives it: a token has one live tap at a moment.
CREATE VIEW transfer_ride AS
  SELECT t.token, t.line, t.moment, t.mode, r.line AS ride_line, r.moment AS ride_moment,
         r.mode AS ride_mode
  FROM line t LEFT JOIN line r ON r.token = t.token AND r.line < t.line
       AND r.moment = t.points_at AND r.answer IN ('paid', 'capped')
  WHERE t.answer = 'transfer';

-- Transfers by pair of modes: of the ride, and of the transfer.
CREATE VIEW transfers AS
  SELECT ride_mode AS from_mode, mode AS to_mode, count(*) AS taps
  FROM transfer_ride GROUP BY ride_mode, mode;

-- Stale taps by validator and day. A ledger does not say from which upload a tap came; an upload
-- that came late shows as the days of its validators.
CREATE VIEW stale_taps AS
  SELECT validator, day, count(*) AS taps, count(CASE answer WHEN 'stale' THEN 1 END) AS stale,
         count(CASE answer WHEN 'stale' THEN 1 END) * 100 / count(*) AS percent
  FROM line GROUP BY validator, day HAVING count(CASE answer WHEN 'stale' THEN 1 END) > 0;

-- The postings of a journal by civil day: riders owe what is charged (debits, one for each token),
-- and modes earn it (credits, below 0). A day's postings add up to 0.
CREATE VIEW posting AS
  SELECT day, 'assets:receivable' AS account, token, sum(cents) AS cents
  FROM line WHERE cents > 0 GROUP BY day, token
  UNION ALL
  SELECT day, 'revenue:rides:' || mode, NULL, -cents FROM revenue WHERE cents > 0;
