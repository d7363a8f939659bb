#!/usr/bin/env python3
"""Checks a ledger under a fare table, and a report against it (`-`: standard input):

    check_ledger.py [--all] [--live] [--report REPORT] --table TABLE... LEDGER [--uploads FILE...]

Prints `legal N lines, settled` with status 0, or `legal N lines, not settled: line L is earlier than
the line before`, with status 0 only after `--live`. Else status 1 and the first wrong line: `line N wants LINE`,
the line that the fare rules give that tap there, or `line N is no ledger line`; the standard error
says why it is none. Line 1 is the head line. Status 2 is a fault of the command line. With `--all`
it goes on after a wrong line, and ends with `wrong N of M lines, of K tokens; cents C, wanted D`.
With `--report` a second line follows `legal N lines, ..`: `report of the ledger`, or status 1 and the
report's first line that is not that of the ledger's sums, `wrong report line N: wants LINE` or
`wrong report line N: no report has it`. Of the uploads' lines only the form is known, and that their
taps are as many as the ledger's: else `wrong report line N: the uploads have A taps, the ledger B`.
So `upload lines not compared` is the next line: `omny_audit --uploads` compares them.
A traced ledger, known by its head line, is checked without its last three columns. A table whose
`default_class` or `riders` names a class that it cannot have is refused, with status 1. A line whose
columns have not their form is no ledger line. After `legal N lines, ..`, or their end with `--all`,
comes `all classes of the table` or, with status 1, `line N has another class than CLASS` for the
first such line. With `--uploads` comes also `all places of the uploads`, or with status 1 the first
of `line N has another tap than upload U has at place P`, `line N has upload U place P again` and
`no line has upload U place P`. Then the ledger has the taps of the uploads, each once. `--uploads`
needs a traced ledger: `omny_audit` compares the taps of any.
Several tables are named as `--table OLD.toml --table NEW.toml@2026-01-04`: NEW.toml is valid from
00:00 of that day on, by the clocks of the tables' zone, else by UTC. A line `fault: ..` says why
tables are refused, with status 2 if the words alone are wrong.
Written from docs/RULES.md and docs/FORMATS.md alone, so that it shares no mistake with the program.
It keeps one account and one line at a time, with `--report` the sums, with `--uploads` their taps.
It needs Python 3.11 and nothing else."""
import io, os, re, struct, sys, tomllib
from bisect import bisect_right
from datetime import date, datetime, time, timedelta, timezone
from functools import lru_cache
from zoneinfo import ZoneInfo

MINUTE_MS, DAY_MS, MOMENT_LIMIT = 60_000, 86_400_000, 4_102_444_800_000
HEAD = ("token,line,moment,validator,mode,answer,cents,"
        "window_start,window_end,ride,reason,points_at\n")
TRACED_HEAD = HEAD[:-1] + ",class,upload,place\n"
NUMBER, WORD, REASON = "(?:0|[1-9][0-9]*)", "[a-z-]{0,16}", "[a-z:-]{0,32}"
MOMENT = "[0-9]{4}-[0-9]{2}-[0-9]{2}T(?:[01][0-9]|2[0-3])(?::[0-5][0-9]){2}[.][0-9]{3}Z"
LINE = re.compile(f"([0-9a-f]{{32}}),({NUMBER}),({MOMENT}),({NUMBER}),{WORD},{WORD},({NUMBER}),"
                  f"({MOMENT}|),({MOMENT}|),({NUMBER}|),{REASON},({MOMENT}|)\n")
# a line that has a tap, whatever it says of it, and its cents behind the validator
TAP = re.compile(f"([0-9a-f]{{32}}),[^,]*,({MOMENT}),({NUMBER})(,.*\n|\n)")
CENTS = re.compile(f",[^,]*,[^,]*,({NUMBER}),")
# what stands behind the twelve fields of a line of a traced ledger: no class has more than 64 bytes,
# no upload's number is past 32 bits, and no place past 64
CLASS = re.compile("[A-Za-z0-9_-]{1,64}")
COLUMNS = re.compile(f"(.*),({CLASS.pattern}),({NUMBER}),({NUMBER})\n")
LINE_BYTES, TRACED_BYTES = 255, 255 + 97
ANSWERS = {"paid": "paid", "transfer": "transfers", "capped": "capped", "stale": "stale",
           "unknown": "unknown"}
UPLOADS = re.compile(f"uploads ({NUMBER})\n")
UPLOAD = re.compile(f"upload ({NUMBER}) (?:(?:posted|cut) ({NUMBER})|undrawn"
                    f"|refused ({NUMBER}) at ({NUMBER}) L[1-6])\n")
WINDOW = re.compile("([1-9]|[12][0-9]|3[01]) days|calendar (day|week|month)")
# a table's word that ends in the form of a date, which is the part behind its last `@`
DATED = re.compile("(.*)@([0-9]{4}-[0-9]{2}-[0-9]{2})", re.DOTALL)
# days of a POSIX rule that zoneinfo takes for others: `n`, and J59
RULE_DAY = re.compile("(?<=.),(J59|[0-2]?[0-9]{1,2}|3[0-5][0-9]|36[0-5])"
                      "(/([+-]?)([0-9]{1,3})(?::([0-5][0-9]))?(?::([0-5][0-9]))?)?(?=,|$)")

@lru_cache(1024)
def day_ms(text):
    """The first millisecond of a date in UTC. ValueError if no calendar has the date."""
    return (date.fromisoformat(text) - date(1970, 1, 1)).days * DAY_MS

def moment_ms(text):
    """A moment's milliseconds since 1970."""
    minutes = int(text[11:13]) * 60 + int(text[14:16])
    return day_ms(text[:10]) + minutes * 60_000 + int(text[17:19] + text[20:23])

def moment_text(ms):
    """The moment of these milliseconds, as a ledger has it."""
    return f"{datetime.fromtimestamp(ms // 1000, timezone.utc):%Y-%m-%dT%H:%M:%S}.{ms % 1000:03}Z"

def rule_day(found):
    """The day of a rule as zoneinfo must be given it. A rule counts day `n` from zero, zoneinfo
    from one. In leap years zoneinfo takes J59, 28 February, for the day after it."""
    day, time, sign, *numbers = found.groups()
    if day.isdigit() and int(day) < 365:
        return f",{int(day) + 1}{time or ''}"
    # what zoneinfo takes for the day before, and 24 hours more
    hours, minutes, seconds = (int(number or 0) for number in (numbers if time else (2, 0, 0)))
    clock = (hours * 3600 + minutes * 60 + seconds) * (-1 if sign == "-" else 1) + 86_400
    minutes, seconds = divmod(abs(clock), 60)
    sign = "-" if clock < 0 else ""
    return f",{'J58' if day == 'J59' else day}/{sign}{minutes // 60}:{minutes % 60:02}:{seconds:02}"

def zone_of(rule):
    """The zone of a POSIX rule text: a zone file without changes whose last line is the rule."""
    head = lambda version: b"TZif" + version + bytes(15) + struct.pack(">6I", 0, 0, 0, 0, 1, 1)
    rule = RULE_DAY.sub(rule_day, rule)
    file = (head(b"2") + bytes(7)) * 2 + b"\n" + rule.encode() + b"\n"
    return ZoneInfo.from_file(io.BytesIO(file))

def midnight_ms(day, zone, starts=time()):
    """Where a date begins in a zone, or where a day starts that is of this date."""
    return int(datetime.combine(day, starts, zone).timestamp()) * 1000

def terms_of_class(keys):
    """What the keys of a class say."""
    fare, rides, given = keys["fare"], keys.get("rides"), keys.get("transfers", 1)
    ceiling = keys.get("ceiling", rides * fare if rides and fare else 100_000_000)
    return (fare, keys.get("fares", {}), rides or 60_000, ceiling, 255 if given == "any" else given,
            keys.get("transfer_minutes", 120) * MINUTE_MS)

def pairs_of(entries):
    """What each pair of modes pays: 0, cents, or the difference of fares."""
    pairs = {}
    for entry in entries:
        *pair, pays = (*entry, 0) if isinstance(entry, list) else map(entry.get, ("from", "to", "pays"))
        if pairs.setdefault(tuple(pair), pays) != pays:
            raise ValueError(f"the pair {pair} has two prices")
    return pairs

def window_of(text):
    """The form of a window."""
    if (form := WINDOW.fullmatch(text)) is None:
        raise ValueError(f"no rule has the window {text!r}")
    return form

class Fares:
    """A fare table, as the rules ask it."""
    def __init__(self, table):
        self.pairs = pairs_of(table["transfers"])
        self.terms = {name: terms_of_class(keys) for name, keys in table["classes"].items()}
        self.usual_class = table["default_class"]
        self.usual = self.terms[self.usual_class]
        self.classes = {k.lower(): c for k, c in table.get("riders", {}).items()}
        self.riders = {k: self.terms[c] for k, c in self.classes.items()}
        self.ranges = sorted((r["first"], r["last"], r["mode"]) for r in table["validators"])
        self.modes, self.zone_text = table["modes"], table.get("zone")
        self.zone = None if self.zone_text is None else zone_of(self.zone_text)
        self.window = window_of(table.get("window", "7 days"))
        self.caps = [(name, window_of(cap["window"]), cap.get("modes", self.modes))
                     for name, cap in sorted(table.get("caps", {}).items())]
        self.ceilings = {name: keys.get("caps", {}) for name, keys in table["classes"].items()}
        self.day_starts = time.fromisoformat(table.get("day_starts", "00:00"))

    def mode_of(self, validator):
        """The mode of a validator, or None if the table does not know it."""
        at = bisect_right(self.ranges, validator, key=lambda r: r[0]) - 1
        return self.ranges[at][2] if at >= 0 and validator <= self.ranges[at][1] else None

    def terms_of(self, token):
        """The terms of a token's class."""
        return self.riders.get(token, self.usual)

    def class_of(self, token):
        """The name of a token's class."""
        return self.classes.get(token, self.usual_class)

    def window_end(self, start, window):
        """Where a window of this form ends that starts at this moment."""
        count, period = window.groups()
        if count and self.zone is None:
            return start + int(count) * DAY_MS
        zone = self.zone or timezone.utc
        shown = datetime.fromtimestamp(start // 1000, zone)
        day = shown.date() - timedelta(days=shown.time() < self.day_starts)
        if period == "month":
            day = (day.replace(day=1) + timedelta(days=31)).replace(day=1)
        else:
            day += timedelta(days=7 - day.weekday() if period == "week" else int(count or 1))
        return max(start + 1, midnight_ms(day, zone, self.day_starts))

class Refused(Exception):
    """Why tables are refused, and the status of that."""
    def __init__(self, why, status):
        super().__init__(why)
        self.status = status

class Tables:
    """Fare tables, each from a moment on. The first one is valid from the beginning."""
    def __init__(self, tables, starts=(), names=()):
        self.tables, self.starts, self.names = tables, list(starts), names

    def check_classes(self):
        """Refused if a table names a class for a token that a traced ledger cannot have."""
        for fares, name in zip(self.tables, self.names):
            if not all(map(CLASS.fullmatch, {fares.usual_class, *fares.classes.values()})):
                where = f"{name}: " if len(self.tables) > 1 else ""
                raise Refused(f"{where}table has a class name that no ledger can have", 1)

    def at(self, moment):
        """The table that is valid at a moment."""
        return self.tables[bisect_right(self.starts, moment)]

def dates_of(words):
    """The name of each table's file, and its date. Refused if a word has a wrong date, or none."""
    dated = []
    for word in words:
        name, day = found.groups() if (found := DATED.fullmatch(word)) else (word, None)
        if day and not "1970" <= day[:4] <= "2099":
            raise Refused(f"--table {word}: a date is from 1970-01-01 to 2099-12-31", 2)
        try:
            day = day and date.fromisoformat(day)
        except ValueError:
            raise Refused(f"--table {word}: there is no such date", 2) from None
        if day and not dated:
            raise Refused(f"--table {word}: the first table has no date", 2)
        if not day and dated:
            raise Refused(f"--table {word}: a date is wanted, as {word}@2026-01-04", 2)
        dated.append((name, day))
    return dated

def tables_of(words):
    """The tables that words name. Refused if one cannot follow those before it."""
    tables, starts, dated = [], [], dates_of(words)
    for word, (name, day) in zip(words, dated):
        with open(name, "rb") as file:
            fares = Fares(tomllib.load(file))
        if day:
            start = midnight_ms(day, tables[0].zone or timezone.utc)
            if start <= max([0, *starts]):
                late = "a table before it is valid from the same date or a later one"
                raise Refused(f"{word}: {late}", 1)
            if fares.zone_text != tables[0].zone_text:
                raise Refused(f"{word}: it names another zone", 1)
            if fares.modes != tables[0].modes:
                raise Refused(f"{word}: it has other modes", 1)
            if [name for name, *_ in fares.caps] != [name for name, *_ in tables[0].caps]:
                raise Refused(f"{word}: it has other caps", 1)
            starts.append(start)
        tables.append(fares)
    return Tables(tables, starts, [name for name, _ in dated])

def tables_first(words):
    """The words of tables that a command line begins with, and the words behind them."""
    named = []
    while words[:1] == ["--table"] and len(words) > 1:
        named.append(words[1])
        words = words[2:]
    return named, words

class Account:
    """What the rules need of a token's earlier taps. Each tap is looked at under its table."""
    def __init__(self, tables, token):
        self.tables, self.token, self.lines = tables, token, 0
        self.last, self.last_text, self.mode = -1, "", None  # the last live tap
        self.ride, self.ride_text, self.given = -1, "", 0  # the last ride, and its transfers
        # its fare, the price of its trip, and whether the limit of rides freed it
        self.fare, self.price, self.freed = 0, 0, False
        self.end, self.window, self.rides, self.cents = -1, "", 0, 0
        self.caps = {}  # of each cap beside `window` the end of its last window, and its cents

    def post(self, moment, text, validator):
        """The fields that a tap gets, from its line's number on."""
        self.lines += 1
        fares = self.tables.at(moment)
        mode = fares.mode_of(validator)
        if mode is None:
            rest = ",unknown,0,,,,unknown,"
        elif moment <= self.last:
            rest = f"{mode},stale,0,,,,stale,{self.last_text}"
        elif self.gives(fares, moment, mode):
            rest = f"{mode},transfer,{self.transfer(fares, mode)},{self.ride_text}"
            self.last, self.last_text, self.mode = moment, text, mode
            self.given += 1
        else:
            self.last, self.last_text, self.mode = moment, text, mode
            self.ride, self.ride_text, self.given = moment, text, 0
            rest = f"{mode},{self.charge(fares, moment, text, mode)},"
        return f"{self.lines},{text},{validator},{rest}\n"

    def gives(self, fares, moment, mode):
        """Whether the last ride gives a transfer to a live tap, by the table of this tap."""
        *_, transfers, time = fares.terms_of(self.token)
        return (self.given < transfers and moment - self.ride <= time
                and (self.mode, mode) in fares.pairs)

    def charge(self, fares, moment, text, mode):
        """Answer, cents, window, ride and reason of a ride, by its table."""
        if moment >= self.end:
            self.end = fares.window_end(moment, fares.window)
            self.window, self.rides, self.cents = f"{text},{moment_text(self.end)}", 0, 0
        for name, window, _ in fares.caps:
            if moment >= self.caps.get(name, (-1, 0))[0]:
                self.caps[name] = fares.window_end(moment, window), 0
        answer, cents, ride, reason = self.decided(fares, mode)
        self.fare = self.price = self.fare_of(fares, mode)
        self.freed = reason == "ride-limit"
        self.count(fares, mode, cents)
        return f"{answer},{cents},{self.window},{ride},{reason}"

    def transfer(self, fares, mode):
        """Cents, window, ride and reason of a transfer, by its table. It costs what it raises the
        price of the trip, or what is left of that."""
        pays = fares.pairs[self.mode, mode]
        wanted = self.fare_of(fares, mode) if pays == "difference" else self.fare + pays
        cents, self.price = max(0, wanted - self.price), max(wanted, self.price)
        if cents == 0 or self.freed:
            return "0,,,,transfer"
        left, cap = self.least_left(fares, mode)
        reason, cents = "fare" if left >= cents else "cut" if left else "capped", min(left, cents)
        self.count(fares, mode, cents)
        name = ":" + cap if cap and reason != "fare" else ""
        return f"{cents},{self.window},,transfer-{reason}{name}"

    def count(self, fares, mode, cents):
        """Counts the cents of a tap on the mode in the windows of `window` and of its caps."""
        self.cents += cents
        for name, _, modes in fares.caps:
            if mode in modes:
                self.caps[name] = self.caps[name][0], self.caps[name][1] + cents

    def fare_of(self, fares, mode):
        """The fare of the token's class on the mode."""
        fare, of_modes, *_ = fares.terms_of(self.token)
        return of_modes.get(mode, fare)

    def least_left(self, fares, mode):
        """The least that `window` or a cap of the mode leaves, and the name of that cap. Of `window`
        the name is empty. It comes first of those that leave as little, then by name."""
        ceiling = fares.terms_of(self.token)[3]
        ceilings = fares.ceilings[fares.classes.get(self.token, fares.usual_class)]
        left = [(ceiling - self.cents, "")]
        left += [(ceilings.get(name, 100_000_000) - self.caps[name][1], name)
                 for name, _, modes in fares.caps if mode in modes]
        return min((max(0, cents), name) for cents, name in left)

    def decided(self, fares, mode):
        """What decides the cents of a ride whose windows are open."""
        limit, fare = fares.terms_of(self.token)[2], self.fare_of(fares, mode)
        self.rides += 1
        if self.rides > limit:
            return "capped", 0, "", "ride-limit"
        left, cap = self.least_left(fares, mode)
        if left == 0:
            return "capped", 0, self.rides, "cap:" + cap if cap else "ceiling"
        if left < fare:
            return "paid", left, self.rides, "cap-cut:" + cap if cap else "ceiling-cut"
        return "paid", fare, self.rides, "full"

class Sums:
    """Taps, answers and cents of a ledger's lines: of all, by validator and by token."""
    def __init__(self):
        self.totals, self.validators, self.tokens = self.none(), {}, {}

    def none(self):
        return dict.fromkeys(["taps", *ANSWERS.values(), "cents"], 0)

    def add(self, line):
        """Adds what a right line says."""
        token, _, _, validator, _, answer, cents, *_ = line.split(",")
        for sums in (self.totals, self.validators.setdefault(int(validator), self.none()),
                     self.tokens.setdefault(token, self.none())):
            sums["taps"] += 1
            sums[ANSWERS[answer]] += 1
            sums["cents"] += int(cents)

    def lines(self):
        """The report's lines behind those of the uploads."""
        text = lambda sums: " ".join(f"{name} {count}" for name, count in sums.items())
        yield f"totals {text(self.totals)}\n"
        for name, of in ("validator", self.validators), ("token", self.tokens):
            yield f"{name}s {len(of)}\n"
            for key in sorted(of):
                yield f"{name} {key} {text(of[key])}\n"

def wrong_in_report(sums, file):
    """What is wrong with the first line of the report that is not that of these sums, or None."""
    read = lambda: file.readline(512).decode("latin-1")  # no line of a report has as many bytes
    none, taps = "wrong report line {}: no report has it", 0
    if not (head := UPLOADS.fullmatch(read())):
        return none.format(1)
    number = 1
    for upload in range(int(head[1])):
        number += 1
        end = UPLOAD.fullmatch(read())
        if not end or int(end[1]) != upload or max(int(n or 0) for n in end.groups()) >= 2 ** 64:
            return none.format(number)
        taps += int(end[2] or end[3] or 0)
    if taps != sums.totals["taps"]:
        return (f"wrong report line {number}: the uploads have {taps} taps, the ledger "
                f"{sums.totals['taps']}")
    for number, wanted in enumerate(sums.lines(), number + 1):
        if read() != wanted:
            return f"wrong report line {number}: wants {wanted[:-1]}"
    return none.format(number + 1) if read() else None

def taps_of_upload(file):
    """The good taps of an upload: token, moment and validator of each, before its first fault."""
    at, taps = 0, []
    while len(file) - at >= 8:
        magic, count, flags = struct.unpack_from(">4sHH", file, at)
        head, width = (8, 28) if magic == b"TAP1" else (12, 24)
        if magic not in (b"TAP1", b"TAP2") or flags or count > 4096 \
                or len(file) - at < head + width * count:
            break
        if magic == b"TAP1":
            batch = struct.iter_unpack(">16sIQ", file[at + 8:at + 8 + 28 * count])
        else:
            validator, = struct.unpack_from(">I", file, at + 8)
            batch = ((token, validator, moment) for token, moment
                     in struct.iter_unpack(">16sQ", file[at + 12:at + 12 + 24 * count]))
        batch = [(token, moment, validator) for token, validator, moment in batch]
        if any(moment >= MOMENT_LIMIT for _, moment, _ in batch):
            break
        taps += batch
        at += head + width * count
    return taps

class Trace:
    """The columns of a traced ledger's lines, and the first that is wrong."""
    def __init__(self, tables, uploads):
        self.tables, self.wrong_class, self.wrong_place = tables, None, None
        self.uploads = None if uploads is None else [taps_of_upload(file) for file in uploads]
        self.seen = [bytearray(len(taps)) for taps in self.uploads or []]

    def add(self, number, line, columns):
        """Compares the columns of a line that has a tap with the table and the uploads."""
        token, moment, _, validator, *_ = tap_in(line)
        (name, upload, place), is_class = columns, self.tables.at(moment).class_of(token)
        if name != is_class and not self.wrong_class:
            self.wrong_class = f"line {number} has another class than {is_class}"
        if self.uploads is None or self.wrong_place:
            return
        taps = self.uploads[upload] if upload < len(self.uploads) else []
        if not 1 <= place <= len(taps) or taps[place - 1] != (bytes.fromhex(token), moment, validator):
            self.wrong_place = f"line {number} has another tap than upload {upload} has at place {place}"
        elif self.seen[upload][place - 1]:
            self.wrong_place = f"line {number} has upload {upload} place {place} again"
        else:
            self.seen[upload][place - 1] = 1

    def verdict(self):
        """Prints what the columns are. Gives whether all are right."""
        print(self.wrong_class or "all classes of the table")
        if self.uploads is None:
            return not self.wrong_class
        for upload, seen in enumerate(self.seen):
            if not self.wrong_place and 0 in seen:
                self.wrong_place = f"no line has upload {upload} place {seen.index(0) + 1}"
        print(self.wrong_place or "all places of the uploads")
        return not (self.wrong_class or self.wrong_place)

class Untraced:
    """The lines of a ledger, one by one. Those of a traced ledger have lost their columns, which are
    kept beside; a line whose columns have not their form has become an empty one. Refused if a table
    names a class that a traced ledger cannot have."""
    def __init__(self, file, tables):
        self.file, self.tables, self.columns = file, tables, None
        self.is_traced, self.at_head = False, True

    def readline(self, limit):
        """The next line, or a beginning of so many bytes of a longer one."""
        line = self.file.readline(len(TRACED_HEAD) if self.at_head else
                                  TRACED_BYTES + 1 if self.is_traced else limit)
        if self.at_head:
            self.at_head, self.is_traced = False, line == TRACED_HEAD.encode()
            if self.is_traced:
                self.tables.check_classes()
            return HEAD.encode() if self.is_traced else line + (
                b"" if line.endswith(b"\n") else self.file.readline(max(0, limit - len(line))))
        if not self.is_traced or not line.endswith(b"\n") and len(line) <= TRACED_BYTES:
            return line
        more = line
        while not more.endswith(b"\n") and (more := self.file.readline(65_536)):
            pass
        found = COLUMNS.fullmatch(line.decode("latin-1"))
        if not found or int(found[3]) >= 2 ** 32 or int(found[4]) >= 2 ** 64 \
                or len(found[1]) >= LINE_BYTES:
            return b"\n"
        self.columns = found[2], int(found[3]), int(found[4])
        return found[1].encode("latin-1") + b"\n"

def tap_of(line):
    """Token, moment, its text and validator of a ledger line. ValueError if it is none."""
    if not (fields := LINE.fullmatch(line)):
        raise ValueError("it is cut, too long, or has not twelve fields in a ledger's form")
    token, place, text, validator, cents, start, end, ride, points_at = fields.groups()
    moments = [moment_ms(m) for m in (text, start, points_at) if m]
    if (int(place) >= 2 ** 64 or max(int(n or 0) for n in (validator, cents, ride)) >= 2 ** 32
            or not 0 <= min(moments) <= max(moments) < MOMENT_LIMIT or end and moment_ms(end) < 0):
        raise ValueError("a number or a moment is past its range")
    return token, moments[0], text, int(validator)

class Order:
    """Which line of a ledger is the first that is earlier than the line before it."""

    def __init__(self):
        self.last, self.early = ("", 0, 0), None

    def add(self, number, token, moment, validator):
        tap = token, moment, validator
        if tap < self.last and self.early is None:
            self.early = number
        self.last = tap

    def legal(self, count):
        if self.early is None:
            return f"legal {count} lines, settled"
        return f"legal {count} lines, not settled: line {self.early} is earlier than the line before"

def first_wrong(tables, file, sums, trace, order):
    """How many lines are right, what is wrong with the next, and why it is no ledger line. The lines
    that are right are added to the sums, if there are any, their columns to the trace, and their taps
    to the order."""
    read = lambda: file.readline(256).decode("latin-1")  # no ledger line has as many bytes
    if read() != HEAD:
        return 0, "line 1 is no ledger line", "it is not the head line"
    account, last, count = None, "", 0
    while line := read():
        try:
            token, moment, text, validator = tap_of(line)
            if token < last:
                raise ValueError("its token stands behind a greater one")
        except ValueError as why:
            return count, f"line {count + 2} is no ledger line", why
        if token != last:
            account, last = Account(tables, token), token
        wanted = f"{token},{account.post(moment, text, validator)}"
        if line != wanted:
            return count, f"line {count + 2} wants {wanted[:-1]}", None
        if sums:
            sums.add(line)
        count += 1
        order.add(count + 1, token, moment, validator)
        if file.is_traced:
            trace.add(count + 1, line, file.columns)
    return count, None, None

def lines_in(file):
    """Each line, or nothing in place of one that is too long or that the text's end cuts."""
    while line := file.readline(256):
        fits = len(line) < 256 and line.endswith(b"\n")
        while not line.endswith(b"\n") and (more := file.readline(65_536)):
            line = more
        yield line.decode("latin-1") if fits or not line else ""

def tap_in(line):
    """The tap that a line has: token, moment, its text, validator and cents. None if it has none."""
    if not (found := TAP.fullmatch(line)):
        return None
    token, text, validator, rest = found.groups()
    try:
        moment = moment_ms(text)
    except ValueError:
        return None
    if not 0 <= moment < MOMENT_LIMIT or int(validator) >= 2 ** 32:
        return None
    cents = CENTS.match(rest)
    cents = int(cents[1]) if cents else 0
    return token, moment, text, int(validator), cents if cents < 2 ** 32 else 0

def all_wrong(tables, file, sums, trace, order):
    """Prints each wrong line and the end. Gives whether no line is wrong. Each line that tells a tap
    is added to the sums as it should be, if there are any, and its tap to the order."""
    account, last, wrong, tokens, last_wrong, cents, wanted_cents = None, "", 0, 0, None, 0, 0
    number = 0
    for number, line in enumerate(lines_in(file), 1):
        if number == 1 or not (tap := tap_in(line)):
            if number > 1 or line != HEAD:
                wrong += 1
                print(f"line {number} is no ledger line")
            continue
        token, moment, text, validator, asked = tap
        falls = token < last
        if token != last:
            account, last = Account(tables, token), token
        wanted = f"{token},{account.post(moment, text, validator)}"
        cents += asked
        wanted_cents += int(wanted.split(",")[6])
        order.add(number, token, moment, validator)
        if sums:
            sums.add(wanted)
        if file.is_traced:
            trace.add(number, line, file.columns)
        if falls or line != wanted:
            print(f"line {number} " + ("is no ledger line" if falls else f"wants {wanted[:-1]}"))
            wrong, tokens, last_wrong = wrong + 1, tokens + (token != last_wrong), token
    if number == 0:
        number, wrong = 1, 1
        print("line 1 is no ledger line")
    print(f"wrong {wrong} of {number - 1} lines, of {tokens} tokens; cents {cents}, wanted "
          f"{wanted_cents}" if wrong else order.legal(number - 1))
    return not wrong

def read(name):
    """All bytes of the file of this name."""
    with open(name, "rb") as file:
        return file.read()

def main():
    words = sys.argv[1:]
    is_live = "--live" in words
    words = [word for word in words if word != "--live"]
    goes_on = words[:1] == ["--all"]
    words = words[goes_on:]
    report = words[1] if words[:1] == ["--report"] and len(words) > 1 else None
    named, words = tables_first(words[2 if report is not None else 0:])
    names = words[2:] if words[1:2] == ["--uploads"] and len(words) > 2 else None
    words = words[:1] if names is not None else words
    if len(words) != 1 or not named:
        sys.exit(print(__doc__, file=sys.stderr) or 2)
    try:
        tables, sums = tables_of(named), None if report is None else Sums()
        with open(0 if words[0] == "-" else words[0], "rb") as file, \
                open(os.devnull if report is None else report, "rb") as reported:
            order = Order()
            ledger = Untraced(file, tables)
            trace = Trace(tables, names and [read(name) for name in names])
            if goes_on:
                wrong, why = "" if all_wrong(tables, ledger, sums, trace, order) else "wrong", None
            else:
                count, wrong, why = first_wrong(tables, ledger, sums, trace, order)
                print(wrong or order.legal(count))
            if names and not ledger.is_traced:
                raise ValueError("--uploads needs a traced ledger")
            if ledger.is_traced and (goes_on or not wrong):
                wrong = "" if trace.verdict() and not wrong else "wrong"
            if sums and not wrong:
                wrong = wrong_in_report(sums, reported)
                print(wrong or "report of the ledger")
                print("upload lines not compared")
            if order.early and not is_live:
                wrong = wrong or "not settled"
    except Refused as why:
        sys.exit(print(f"fault: {why}", file=sys.stderr) or why.status)
    except (OSError, ValueError, LookupError, TypeError, AttributeError) as why:
        sys.exit(f"fault: {type(why).__name__} {why}")
    sys.exit(f"fault: {why}" if why else bool(wrong))

if __name__ == "__main__":
    main()
