#!/usr/bin/env python3
"""Makes this folder's week of taps, and what a settled run prints of it: run it here.

It writes table.toml, the uploads (one a depot and day; two are damaged), other/ (the posted taps of
these uploads once more, dealt to other files in no order), report.txt and statement.txt.
Both texts are made from docs/RULES.md and docs/FORMATS.md alone, by the account of
ledgers/audit/check_ledger.py, so that they share no mistake with the program. It needs Python 3.11 alone.
"""
import os, random, struct, sys, tomllib
from collections import defaultdict
from datetime import datetime, timedelta
from zoneinfo import ZoneInfo
sys.dont_write_bytecode = True
os.chdir(os.path.dirname(os.path.abspath(__file__)))
sys.path.insert(0, "../../ledgers/audit")
from check_ledger import MOMENT_LIMIT, Account, Fares, moment_text

RIDERS = 200
NEW_YORK, MONDAY = ZoneInfo("America/New_York"), datetime(2025, 10, 27)
TABLE = '''# A week in New York: clocks change on its Sunday.
zone = "EST5EDT,M3.2.0,M11.1.0"
modes = ["subway", "bus", "ferry"]
transfers = [["subway", "bus"], ["bus", "subway"], ["bus", "bus"], ["ferry", "subway"]]
default_class = "full"

[classes.full]
fare = 290
rides = 12
ceiling = 3400

[classes.reduced]
fare = 145
rides = 12

[[validators]]
first = 1000
last = 1999
mode = "subway"

[[validators]]
first = 2000
last = 2999
mode = "bus"

[[validators]]
first = 3000
last = 3099
mode = "ferry"

[riders]
'''
ANSWERS = ("paid", "transfer", "capped", "stale", "unknown")


def week_of(rnd):
    """Taps (token, moment, validator) of all riders."""
    for rider in range(RIDERS):
        token, taps = f"{rnd.getrandbits(128):032x}", []
        kind = rnd.choices(("commuter", "heavy", "weekend", "rare"), (55, 20, 15, 10))[0]
        home, work = 1000 + rnd.randrange(40), 1040 + rnd.randrange(40)
        bus = 2000 + rnd.randrange(30)
        days = {"commuter": range(5), "heavy": range(7), "weekend": (5, 6)}
        for day in days.get(kind, (rider % 7,)):
            hour = rnd.uniform(6, 9)
            if kind == "heavy":
                while hour < 22:
                    taps.append((day, hour, rnd.choice((home, work, bus, 3000 + rnd.randrange(4)))))
                    hour += rnd.uniform(.5, 3.5)
                continue
            back = rnd.uniform(16, 20)
            taps += [(day, hour, bus), (day, hour + rnd.uniform(.2, .9), home), (day, back, work),
                     (day, back + rnd.uniform(.3, 2.3), bus)]
        for day, hour, validator in taps:
            at = (MONDAY + timedelta(days=day, hours=hour)).replace(tzinfo=NEW_YORK)
            moment = int(at.timestamp() * 1000)
            if rnd.random() < .01:
                validator = 3999                    # in no range of the table
            yield token, moment, validator
            if rnd.random() < .01:
                yield token, moment, validator      # the same tap once more
            if rnd.random() < .01:
                # a tie: the validator beside it, the same moment
                yield token, moment, validator + 1


def tap1(taps):
    """The taps as TAP1 batches, 40 taps each, so that damage spares the batches before it."""
    rows = [struct.pack(">16sIQ", bytes.fromhex(t), v, m) for t, m, v in taps]
    parts = [rows[k:k + 40] for k in range(0, len(rows), 40)]
    return b"".join(struct.pack(">4sHH", b"TAP1", len(p), 0) + b"".join(p) for p in parts)


def tap2(taps):
    """The taps as TAP2 batches, one a validator."""
    of = defaultdict(list)
    for token, moment, validator in taps:
        of[validator].append(struct.pack(">16sQ", bytes.fromhex(token), moment))
    return b"".join(struct.pack(">4sHHI", b"TAP2", len(p), 0, v) + b"".join(p)
                    for v, p in sorted(of.items()))


def read(upload):
    """The posted taps of an upload, and its end as the report has it."""
    at, taps = 0, []
    while at < len(upload):
        left, two = len(upload) - at, upload[at:at + 4] == b"TAP2"
        fault = None
        if left < 8 or two and left < 12:
            fault = "L1"
        elif upload[at:at + 4] not in (b"TAP1", b"TAP2"):
            fault = "L2"
        else:
            count, flags = struct.unpack_from(">HH", upload, at + 4)
            first, size = (12, 24) if two else (8, 28)
            records = [upload[k:k + size] for k in
                       range(at + first, at + first + count * size, size)]
            shared = upload[at + 8:at + 12] if two else b""
            batch = [struct.unpack(">16sIQ", r[:16] + (shared or r[16:20]) + r[-8:])
                     for r in records if len(r) == size]
            fault = ("L3" if flags else "L4" if count > 4096 else "L5" if len(batch) < count else
                     "L6" if any(m >= MOMENT_LIMIT for _, _, m in batch) else None)
        if fault:
            return taps, f"refused {len(taps)} at {at} {fault}"
        taps += [(token.hex(), moment, validator) for token, validator, moment in batch]
        at += first + count * size
    return taps, f"posted {len(taps)}"


def sums(lines):
    """The sums of lines (answer, cents)."""
    counts = [sum(answer == name for answer, _ in lines) for name in ANSWERS]
    return (f"taps {len(lines)} paid {counts[0]} transfers {counts[1]} capped {counts[2]} "
            f"stale {counts[3]} unknown {counts[4]} cents {sum(cents for _, cents in lines)}")


def settled(fares, taps):
    """The lines of each token: its taps in order of moment and validator, charged."""
    of = defaultdict(list)
    for token, moment, validator in sorted(taps):
        if token not in of:
            account = Account(fares, token)
        fields = account.post(moment, moment_text(moment), validator).split(",")
        of[token].append((moment, validator, *fields[3:]))
    return of


def report_of(ends, of):
    """The report, by the uploads' ends and the lines of each token."""
    at, every = defaultdict(list), []
    for lines in of.values():
        for _, validator, _, answer, cents, *_ in lines:
            at[validator].append((answer, int(cents)))
            every.append((answer, int(cents)))
    own = {token: [(line[3], int(line[4])) for line in lines] for token, lines in of.items()}
    return "".join([f"uploads {len(ends)}\n",
                    *(f"upload {n} {end}\n" for n, end in enumerate(ends)),
                    f"totals {sums(every)}\n", f"validators {len(at)}\n",
                    *(f"validator {v} {sums(lines)}\n" for v, lines in sorted(at.items())),
                    f"tokens {len(own)}\n",
                    *(f"token {t} {sums(lines)}\n" for t, lines in sorted(own.items()))])


def statement_of(token, lines):
    """The statement of a token."""
    rides = [line for line in lines if line[3] in ("paid", "capped")]
    last = [line for line in rides if line[5:7] == rides[-1][5:7]]
    window = (f"{last[0][5]} {last[0][6]} paid {sum(line[3] == 'paid' for line in last)} "
              f"cents {sum(int(line[4]) for line in last)}")
    return "".join([f"statement {token}\n",
                    *(f"{moment_text(m)} {mode or '-'} {v} {answer} {cents}\n"
                      for m, v, mode, answer, cents, *_ in lines),
                    f"totals {sums([(line[3], int(line[4])) for line in lines])}\n",
                    f"window {window}\n"])


def main():
    rnd = random.Random(2025)
    taps = list(week_of(rnd))
    riders = sorted({token for token, _, _ in taps})
    text = TABLE + "".join(f'{token} = "reduced"\n' for token in rnd.sample(riders, RIDERS // 12))
    depots = defaultdict(list)
    for tap in sorted(taps, key=lambda tap: tap[1:]):
        depot = {1: "subway", 2: "bus"}.get(tap[2] // 1000, "ferry")
        day = datetime.fromtimestamp(tap[1] / 1000, NEW_YORK).date()
        depots["week-ferry" if depot == "ferry" else f"{day}-{depot}"].append(tap)
    late = [tap for tap in depots["2025-10-28-bus"] if tap[2] < 2005]  # a box read on Thursday
    depots["2025-10-28-bus"] = [tap for tap in depots["2025-10-28-bus"] if tap[2] >= 2005]
    depots["2025-10-30-bus-late"] = late
    uploads = {name: (tap2 if "bus" in name else tap1)(list_) for name, list_ in depots.items()}
    subway, bus = uploads["2025-10-29-subway"], uploads["2025-10-31-bus"]
    uploads["2025-10-29-subway"] = subway[:len(subway) * 2 // 3]       # cut off
    uploads["2025-10-31-bus"] = bus[:len(bus) // 2] + b"\r\n" + bus[len(bus) // 2:]  # sent as text
    ends, posted = [], []
    for name, upload in sorted((f"{name}.tap", upload) for name, upload in uploads.items()):
        with open(name, "wb") as file:
            file.write(upload)
        some, end = read(upload)
        posted += some
        ends.append(end)
    of = settled(Fares(tomllib.loads(text)), posted)
    rnd.shuffle(posted)
    third = len(posted) // 3
    os.makedirs("other", exist_ok=True)
    for name, upload in (("a", tap2(posted[:third])), ("b", tap1(posted[third:2 * third])),
                         ("c", tap1(posted[2 * third:]))):
        with open(f"other/{name}.tap", "wb") as file:
            file.write(upload)
    shown = max(of, key=lambda token: len({line[3] for line in of[token]}) * 1000 + len(of[token]))
    for name, content in (("table.toml", text), ("report.txt", report_of(ends, of)),
                          ("statement.txt", statement_of(shown, of[shown]))):
        with open(name, "w", encoding="ascii") as file:
            file.write(content)


if __name__ == "__main__":
    main()
