#!/usr/bin/env python3
"""Makes ledgers to test with: make_ledger.py --table TABLE.. UPLOAD.. or make_ledger.py --week DIR N

With uploads it prints the ledger of their taps, posted in order, as `omny_cli --ledger` does with
one worker. Several tables are named as check_ledger.py takes them. With --week it writes
DIR/table.toml, under a zone, and DIR/ledger.csv of N riders, some twenty taps each, over the week in
which New York's clocks changed: every reason is in it.
"""
import random, sys, tomllib
from collections import defaultdict
from itertools import chain
sys.dont_write_bytecode = True
from check_ledger import HEAD, Account, Fares, Refused, Tables, moment_text, read, tables_first, \
    tables_of, taps_of_upload

WEEK_START, HOUR_MS = 1_761_537_600_000, 3_600_000  # 2025-10-27, midnight in New York
TABLE = '''zone = "EST5EDT,M3.2.0,M11.1.0"
modes = ["subway", "bus", "ferry"]
transfers = [["subway", "bus"], ["bus", "subway"], ["bus", "bus"], ["ferry", "subway"]]
default_class = "full"

[classes.full]
fare = 290
rides = 40
ceiling = 3400

[classes.reduced]
fare = 145
rides = 12

[[validators]]
first = 10000
last = 11999
mode = "subway"

[[validators]]
first = 20000
last = 21799
mode = "bus"

[[validators]]
first = 30000
last = 30199
mode = "ferry"

[riders]
'''


def week_of(rnd, riders):
    """Taps of riders in a week, with late ones, double ones, and ones at unknown validators."""
    for rider in range(riders):
        token, at = f"{rnd.getrandbits(128):032x}", WEEK_START + rnd.randrange(30 * HOUR_MS)
        for _ in range(rnd.choice((2, 10, 12, 24, 60))):
            at += rnd.randrange(HOUR_MS // 4, 12 * HOUR_MS if rider % 3 else 4 * HOUR_MS)
            late = rnd.choice((0, 0, 0, 0, 0, 0, 0, 0, 0, 9 * HOUR_MS))
            place = rnd.choice((10000, 10000, 20000, 20000, 30000)) + rnd.randrange(200)
            yield token, at - late, 39999 if rnd.random() < .01 else place
            if rnd.random() < .02:
                yield token, at - late, place


def write_ledger(tables, taps, file):
    """Posts the taps and writes the ledger."""
    of = defaultdict(list)
    for token, moment, validator in taps:
        of[token].append((moment, validator))
    file.write(HEAD)
    for token in sorted(of):
        account = Account(tables, token)
        for moment, validator in of[token]:
            file.write(f"{token},{account.post(moment, moment_text(moment), validator)}")


def main():
    if len(sys.argv) < 3 or sys.argv[1] not in ("--table", "--week"):
        sys.exit(__doc__)
    if sys.argv[1] == "--table":
        named, names = tables_first(sys.argv[1:])
        try:
            tables = tables_of(named)
        except Refused as why:
            sys.exit(print(f"fault: {why}", file=sys.stderr) or why.status)
        taps = chain.from_iterable(taps_of_upload(read(name)) for name in names)
        write_ledger(tables, ((tap[0].hex(), *tap[1:]) for tap in taps), sys.stdout)
        return
    taps = list(week_of(random.Random(1), int(sys.argv[3])))
    reduced = sorted({token for token, _, _ in taps if token[0] == "0"})
    text = TABLE + "".join(f'{token} = "reduced"\n' for token in reduced)
    with open(f"{sys.argv[2]}/table.toml", "w") as table:
        table.write(text)
    with open(f"{sys.argv[2]}/ledger.csv", "w") as file:
        write_ledger(Tables([Fares(tomllib.loads(text))]), taps, file)


if __name__ == "__main__":
    main()
