"""The rule of fares by cents as a program: `account_rule/specs` word by word, over whole lists, and
`Account` as its code keeps it. `tries.py` compares both, and the rule before this one.

A tap is (moment, mode), mode None if the validator is unknown. Terms are (fare, rides, ceiling).
"""
from dataclasses import dataclass
from typing import Callable


@dataclass
class Rules:
    """`TokenRules`: what is asked of a tap may depend on its moment and mode."""
    terms: Callable      # tap -> (fare, rides, ceiling)
    count: Callable      # tap -> how many transfers the ride before it gives
    time: Callable       # tap -> for how long, in milliseconds
    permits: Callable    # mode, tap -> whether there is a transfer
    until: Callable      # moment -> the end of a window whose first ride is then


# ---- definitions over whole lists

def is_later(earlier, moment):
    return all(tap[0] < moment for tap in earlier if tap[1] is not None)


def live(taps):
    return [tap for k, tap in enumerate(taps) if tap[1] is not None and is_later(taps[:k], tap[0])]


def blocks_by(joins, xs):
    blocks = []
    for x in xs:
        if blocks and joins(blocks[-1], x):
            blocks[-1].append(x)
        else:
            blocks.append([x])
    return blocks


def continues(rules, trip, tap):
    ride, given, last = trip[0], len(trip) - 1, trip[-1]
    return (given < rules.count(tap) and tap[0] - ride[0] <= rules.time(tap)
            and rules.permits(last[1], tap))


def trips(rules, taps):
    return blocks_by(lambda trip, tap: continues(rules, trip, tap), live(taps))


def rides(rules, taps):
    return [trip[0] for trip in trips(rules, taps)]


def windows(rules, taps):
    return blocks_by(lambda window, ride: ride[0] < rules.until(window[0][0]), rides(rules, taps))


def charge(terms, had, cents):
    fare, limit, ceiling = terms
    if had >= limit:
        return ("ride-limit", None, None)
    if cents >= ceiling:
        return ("ceiling", had, None)
    if cents + fare <= ceiling:
        return ("full", had, fare)
    return ("ceiling-cut", had, ceiling - cents)


def charges(terms, window):
    out, cents = [], 0
    for had, ride in enumerate(window):
        out.append(charge(terms(ride), had, cents))
        cents += out[-1][2] or 0
    return out


def ride_reply(one):
    return ("capped", 0) if one[2] is None else ("paid", one[2])


def reason(rules, earlier, tap):
    if tap[1] is None:
        return ("unknown",)
    if not is_later(earlier, tap[0]):
        return ("stale", max(t[0] for t in earlier if t[1] is not None))
    taps = earlier + [tap]
    if len(trips(rules, taps)[-1]) > 1:
        return ("transfer", trips(rules, earlier)[-1][0])
    window = windows(rules, taps)[-1]
    return ("ride", window[0][0], rules.until(window[0][0]), charges(rules.terms, window)[-1])


def reply_by(why):
    return ride_reply(why[3]) if why[0] == "ride" else (why[0], 0)


def no_transfer(rules, earlier, ride):
    found = trips(rules, earlier)
    if not found:
        return ("first",)
    trip = found[-1]
    if ride[0] - trip[-1][0] > rules.time(ride):
        return ("too-late", trip[-1][0])
    if rules.count(ride) <= len(trip) - 1:
        return ("none-given",) if len(trip) == 1 else ("after-transfer", trip[-1][0])
    if ride[0] - trip[0][0] > rules.time(ride):
        return ("ride-too-late", trip[0][0])
    return ("not-permitted", trip[-1][1], ride[1])


# ---- the account, as its code keeps it

MAX_RIDES = 60_000


class Account:
    def __init__(self):
        self.last = None                      # none: no live tap yet (`has_window` is false)

    def step(self, rules, tap):
        moment, mode = tap
        if mode is None:
            return ("unknown", 0)
        if self.last is not None:
            if moment <= self.last:
                return ("stale", 0)
            if (self.given < rules.count(tap) and moment - self.ride <= rules.time(tap)
                    and rules.permits(self.mode, tap)):
                self.last, self.mode, self.given = moment, mode, self.given + 1
                return ("transfer", 0)
        if self.last is None or moment >= self.until:
            self.until, self.cents, self.rides, self.paid = rules.until(moment), 0, 0, 0
        one = charge(rules.terms(tap), self.rides, self.cents)
        if one[2] is not None:
            self.cents += one[2]
            self.paid += 1
        self.rides = min(self.rides + 1, MAX_RIDES)
        self.last = self.ride = moment
        self.mode, self.given = mode, 0
        assert self.paid <= self.rides <= MAX_RIDES and self.cents <= 100_000_000
        return ride_reply(one)


# ---- the rule before this one: chains of links, and charges by places

TWO_HOURS = 7_200_000


def old_chains(permits, taps):
    return blocks_by(lambda chain, tap: tap[0] - chain[-1][0] <= TWO_HOURS
                     and permits(chain[-1][1], tap), live(taps))


def old_rides(permits, taps):
    return [tap for chain in old_chains(permits, taps) for tap in chain[::2]]


def place_cents(terms, place):
    fare, limit, ceiling = terms
    return 0 if place >= limit or place * fare >= ceiling else min(fare, ceiling - place * fare)


def old_reply(permits, until, terms, earlier, tap):
    if tap[1] is None:
        return ("unknown", 0)
    if not is_later(earlier, tap[0]):
        return ("stale", 0)
    taps = earlier + [tap]
    if len(old_chains(permits, taps)[-1]) % 2 == 0:
        return ("transfer", 0)
    window = blocks_by(lambda w, r: r[0] < until(w[0][0]), old_rides(permits, taps))[-1]
    cents = place_cents(terms, len(window) - 1)
    return ("paid", cents) if cents > 0 else ("capped", 0)


def old_no_transfer(permits, earlier, ride):
    lived = live(earlier)
    if not lived:
        return ("first",)
    if ride[0] - lived[-1][0] > TWO_HOURS:
        return ("too-late", lived[-1][0])
    if len(old_chains(permits, earlier)[-1]) % 2 == 0:
        return ("after-transfer", lived[-1][0])
    return ("not-permitted", lived[-1][1], ride[1])
