#!/usr/bin/env python3
"""Tries the rule of fares by cents on random lists of taps: tries.py [ROUNDS]

 account     the account's few numbers give what the definitions say of the whole list
 old         with one transfer within two hours and one fare above 0, replies, transfers' rides and
             reasons for no transfer are those of the rule before
 limits      no window has more paid rides or cents than the highest limit of its rides, and after
             each ride no more than the greater of what it had before and this ride's limit
 shares      the cents and paid rides of all replies are those of all windows
 higher      no higher fare, ride limit or ceiling makes a list cheaper
 dates       rules that agree before a date give the same replies before it
 lacks       what is said of a ride that is no transfer is so
"""
import random
import sys

from rule import *

DAY = 86_400_000
MINUTE = 60_000
MODES = (0, 1, 2)


def draw_taps(draw):
    moment, taps = 0, []
    for _ in range(draw.randrange(0, 40)):
        moment += draw.choice((1, 20 * MINUTE, 60 * MINUTE, 120 * MINUTE, 120 * MINUTE + 1, DAY, -MINUTE, 0))
        taps.append((max(moment, 0), draw.choice((0, 0, 1, 1, 2, None))))
    return taps


def draw_terms(draw, least=0):
    fare = draw.choice((least, 100, 290, 725))
    return (fare, draw.choice((1, 3, 12, 1000)), draw.choice((1, 250, 1000, 3500, 100_000)))


def draw_until(draw):
    days = draw.choice((1, 7, 31))
    return draw.choice((lambda m: m + days * DAY, lambda m: (m // DAY + 1) * DAY,
                        lambda m: (m // DAY + 7 - (m // DAY + 3) % 7) * DAY))


def draw_rules(draw, until=None):
    terms = {mode: draw_terms(draw) for mode in MODES}
    count, time = draw.randrange(0, 4), draw.choice((1, 30, 120, 1440)) * MINUTE
    pairs = {(a, b) for a in MODES for b in MODES if draw.random() < 0.6}
    return Rules(lambda tap: terms[tap[1]], lambda tap: count, lambda tap: time,
                 lambda mode, tap: (mode, tap[1]) in pairs, until or draw_until(draw))


def replies(rules, taps):
    return [reply_by(reason(rules, taps[:k], tap)) for k, tap in enumerate(taps)]


def cents_of(window_charges):
    return sum(one[2] or 0 for one in window_charges)


def dated(first, second, day):
    pick = lambda tap: second if tap[0] >= day else first
    return Rules(lambda t: pick(t).terms(t), lambda t: pick(t).count(t), lambda t: pick(t).time(t),
                 lambda mode, t: pick(t).permits(mode, t),
                 lambda m: (second if m >= day else first).until(m))


def one_round(seed):
    draw = random.Random(seed)
    rules, taps = draw_rules(draw), draw_taps(draw)
    if draw.random() < 0.3:
        rules = dated(rules, draw_rules(draw, rules.until), draw.randrange(0, 20) * DAY)
    account, said = Account(), replies(rules, taps)
    assert said == [account.step(rules, tap) for tap in taps], "account"

    cut = windows(rules, taps)
    by_window = [charges(rules.terms, window) for window in cut]
    for window, of in zip(cut, by_window):
        assert sum(one[2] is not None for one in of) <= max(rules.terms(r)[1] for r in window), "limits"
        assert cents_of(of) <= max(rules.terms(r)[2] for r in window), "limits"
        paid = cents = 0
        for ride, one in zip(window, of):
            _, limit, ceiling = rules.terms(ride)
            was = paid, cents
            paid, cents = paid + (one[2] is not None), cents + (one[2] or 0)
            assert paid <= max(was[0], limit) and cents <= max(was[1], ceiling), "limits"
    assert sum(cents for _, cents in said) == sum(map(cents_of, by_window)), "shares"
    assert [s for s in said if s[0] in ("paid", "capped")] == [ride_reply(o) for w in by_window for o in w], "shares"

    more = tuple(draw.choice((0, 1, 50)) for _ in range(3))
    higher = Rules(lambda t: tuple(a + b for a, b in zip(rules.terms(t), more)), rules.count, rules.time,
                   rules.permits, rules.until)
    assert sum(c for _, c in said) <= sum(c for _, c in replies(higher, taps)), "higher"

    day = draw.randrange(0, 20) * DAY
    both = replies(dated(rules, draw_rules(draw), day), taps)
    for k, tap in enumerate(taps):
        if all(t[0] < day for t in taps[:k + 1]):
            assert both[k] == said[k], "dates"

    for k, tap in enumerate(taps):
        why = reason(rules, taps[:k], tap)
        if why[0] == "transfer":
            assert why[1] == rides(rules, taps[:k])[-1], "transfer"
        if why[0] == "ride":
            word = no_transfer(rules, taps[:k], tap)
            found = trips(rules, taps[:k])
            trip = found[-1] if found else None
            assert {"first": lambda: trip is None,
                    "too-late": lambda: tap[0] - trip[-1][0] > rules.time(tap),
                    "none-given": lambda: rules.count(tap) == 0,
                    "after-transfer": lambda: len(trip) > 1 and rules.count(tap) <= len(trip) - 1,
                    "ride-too-late": lambda: tap[0] - trip[0][0] > rules.time(tap),
                    "not-permitted": lambda: not rules.permits(trip[-1][1], tap)}[word[0]](), "lacks"

    terms, pairs = draw_terms(draw, 1), {(a, b) for a in MODES for b in MODES if draw.random() < 0.6}
    permits = lambda mode, tap: (mode, tap[1]) in pairs
    plain = Rules(lambda t: terms, lambda t: 1, lambda t: TWO_HOURS, permits, rules.until)
    for k, tap in enumerate(taps):
        why = reason(plain, taps[:k], tap)
        assert reply_by(why) == old_reply(permits, rules.until, terms, taps[:k], tap), "old"
        if why[0] == "transfer":
            assert why[1] == live(taps[:k])[-1], "old"
        if why[0] == "ride":
            assert no_transfer(plain, taps[:k], tap) == old_no_transfer(permits, taps[:k], tap), "old"
    return "transfer" in {s[0] for s in said}, any(s == ("paid", 0) for s in said)


def main():
    rounds = int(sys.argv[1]) if len(sys.argv) > 1 else 300
    seen = [one_round(seed) for seed in range(rounds)]
    print(f"{rounds} rounds, {sum(s[0] for s in seen)} with transfers, {sum(s[1] for s in seen)} with free rides: all held")


main()
