#!/usr/bin/env python3
"""Puts the class, the upload and the place behind each line of a ledger (`-`: standard input):

    trace_ledger.py --table TABLE.. LEDGER UPLOAD.. > TRACED

The class is that of the token by the table, of several by the table of the tap: `--table OLD.toml
--table NEW.toml@2026-01-04`, as check_ledger.py takes them. The upload is the number of the line's
tap among the words, from 0, and the place is the tap's number in it, from 1. Equal taps stand in the
order of their uploads and places. It is status 1 if a line has no tap that the uploads have left:
then TRACED is a beginning, and the standard error names the line. Status 2 is a fault of the command
line. A table whose `default_class` or `riders` names a class that a traced ledger cannot have is
refused, with status 1. The taps of the uploads are in memory. `check_ledger.py` checks what it writes.
"""
import sys
from collections import defaultdict
sys.dont_write_bytecode = True
from check_ledger import HEAD, TRACED_HEAD, Refused, lines_in, read, tables_first, tables_of, \
    tap_in, taps_of_upload


def places_of(names):
    """The uploads and places of each tap, the last ones first."""
    places = defaultdict(list)
    for upload in reversed(range(len(names))):
        taps = taps_of_upload(read(names[upload]))
        for place in reversed(range(len(taps))):
            places[taps[place]].append((upload, place + 1))
    return places


def trace(tables, places, file, out):
    """Writes the lines with their columns. ValueError at the first line that has no tap left."""
    if file.readline(len(HEAD)) != HEAD.encode():
        raise ValueError("line 1 is not the head line of a ledger")
    out.write(TRACED_HEAD)
    for number, line in enumerate(lines_in(file), 2):
        if not (tap := tap_in(line)):
            raise ValueError(f"line {number} is no ledger line")
        token, moment, _, validator, _ = tap
        if not (left := places.get((bytes.fromhex(token), moment, validator))):
            raise ValueError(f"line {number} has a tap that no upload has left")
        upload, place = left.pop()
        name = tables.at(moment).class_of(token)
        out.write(f"{line[:-1]},{name},{upload},{place}\n")


def main():
    named, words = tables_first(sys.argv[1:])
    if len(words) < 2 or not named:
        sys.exit(print(__doc__, file=sys.stderr) or 2)
    try:
        tables = tables_of(named)
        tables.check_classes()
        with open(0 if words[0] == "-" else words[0], "rb") as file:
            trace(tables, places_of(words[1:]), file, sys.stdout)
            sys.stdout.flush()
    except BrokenPipeError:
        sys.exit(1)
    except Refused as why:
        sys.exit(print(f"fault: {why}", file=sys.stderr) or why.status)
    except (OSError, ValueError, LookupError, TypeError, AttributeError) as why:
        sys.exit(f"fault: {type(why).__name__} {why}")


if __name__ == "__main__":
    main()
