#!/usr/bin/env python3
"""Tries the rule of ledgers/audit/check_ledger.py on random fare tables: tables.py [ROUNDS]

 definitions  each line of a token's ledger is what rule.py says of the whole list of its taps, if
              what is asked of a tap is asked of the table that is valid at its moment
 before       up to a table's date the lines are those of the tables before it alone
"""
import os
import random
import sys
from datetime import date, timezone

from rule import Rules, reason

sys.path.insert(0, os.path.join(os.path.dirname(os.path.abspath(__file__)), "..", "..", "..", "ledgers", "audit"))
from check_ledger import Account, Fares, Tables, midnight_ms, moment_text

MINUTE = 60_000
ZONES = (None, "EST5EDT,M3.2.0,M11.1.0")
START = midnight_ms(date(2026, 2, 20), timezone.utc)
DAYS = (date(2026, 3, 1), date(2026, 3, 8), date(2026, 3, 9))
WINDOWS = ("7 days", "1 days", "calendar day", "calendar week", "calendar month")
PAIRS = ([["tram", "bus"]], [["bus", "bus"], ["bus", "tram"]], [])
CARD = f"{0xa1:032x}"


def draw_table(draw, zone):
    fare = draw.choice((0, 100, 275, 290))
    full = {"fare": fare, "transfers": draw.choice((0, 1, 2, 3, "any")),
            "transfer_minutes": draw.choice((30, 120, 1440)),
            **draw.choice(({}, {"rides": 3}, {"rides": 12}))}
    low = {"fare": fare // 2, "rides": 12, "ceiling": draw.choice((fare // 3 + 1, 5 * fare + 17)),
           "fares": {"bus": draw.choice((0, 10, 500))}}
    table = {"modes": ["tram", "bus"], "transfers": draw.choice(PAIRS), "default_class": "full",
             "classes": {"full": full, "low": low}, "window": draw.choice(WINDOWS),
             "day_starts": draw.choice(("00:00", "02:30", "04:30")),
             "validators": [{"first": 1, "last": 3, "mode": draw.choice(("tram", "bus"))},
                            {"first": 4, "last": draw.choice((5, 6)), "mode": "bus"}],
             "riders": {CARD: "low"} if draw.random() < 0.5 else {}}
    return Fares({**table, "zone": zone} if zone else table)


def valid_at(fares, starts, moment):
    """The table that is valid at a moment: the last one whose date has begun."""
    return [table for table, start in zip(fares, [0, *starts]) if start <= moment][-1]


def rules_of(valid):
    """The rules of the card, as `TokenRules` says them, by the table that is valid at a moment."""
    at = lambda tap: valid(tap[0])

    def terms(tap):
        fare, fares, rides, ceiling, *_ = at(tap).terms_of(CARD)
        return fares.get(tap[1], fare), rides, ceiling

    return Rules(terms, lambda tap: at(tap).terms_of(CARD)[4],
                 lambda tap: at(tap).terms_of(CARD)[5],
                 lambda mode, tap: (mode, tap[1]) in at(tap).pairs,
                 lambda moment: valid(moment).window_end(moment, valid(moment).window))


def fields_of(why):
    """Answer, cents, window, ride, reason and what it points at, as a ledger has them."""
    if why[0] == "ride":
        _, start, end, (word, had, cents) = why
        place = "" if word == "ride-limit" else str(had + 1)
        return ["capped" if cents is None else "paid", str(cents or 0), moment_text(start),
                moment_text(end), place, word, ""]
    points_at = {"transfer": lambda: moment_text(why[1][0]), "stale": lambda: moment_text(why[1]),
                 "unknown": lambda: ""}[why[0]]()
    return [why[0], "0", "", "", "", why[0], points_at]


def one_round(seed):
    draw = random.Random(seed)
    zone, days = draw.choice(ZONES), draw.choice((DAYS[:1], DAYS[1:2], DAYS[:2], DAYS))
    fares = [draw_table(draw, zone) for _ in range(len(days) + 1)]
    starts = [midnight_ms(day, fares[0].zone or timezone.utc) for day in days]
    tables, before = Tables(fares, starts), Tables(fares[:-1], starts[:-1])
    draw_moment = lambda: START + draw.randrange(1, 960) * 30 * MINUTE - draw.choice((0, 1))
    taps = [(draw_moment(), draw.randrange(1, 8)) for _ in range(draw.randrange(1, 50))]
    if draw.random() < 0.8:
        taps.sort()
    account, alone = Account(tables, CARD), Account(before, CARD)
    valid = lambda moment: valid_at(fares, starts, moment)
    seen, is_before, differs, rules = [], True, False, rules_of(valid)
    for moment, validator in taps:
        line = account.post(moment, moment_text(moment), validator)
        tap = moment, valid(moment).mode_of(validator)
        assert line[:-1].split(",")[4:] == fields_of(reason(rules, seen, tap)), "definitions"
        seen.append(tap)
        is_before = is_before and moment < starts[-1]
        same = line == alone.post(moment, moment_text(moment), validator)
        assert same or not is_before, "before"
        differs = differs or not same
    return differs


def main():
    rounds = int(sys.argv[1]) if len(sys.argv) > 1 else 200
    differ = sum(map(one_round, range(rounds)))
    print(f"{rounds} rounds of tables, {differ} in which the last table matters: all held")


main()
