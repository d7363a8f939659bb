#!/usr/bin/env python3
"""Writes two uploads, subway.tap in the layout TAP2 and bus.tap in TAP1, as an example of how to."""
import struct
from datetime import datetime, timezone

def tap1(taps):             # taps: (token, validator, moment); at most 4,096
    body = b"".join(struct.pack(">16sIQ", *tap) for tap in taps)
    return struct.pack(">4sHH", b"TAP1", len(taps), 0) + body

def tap2(validator, taps):  # taps: (token, moment); at most 4,096
    body = b"".join(struct.pack(">16sQ", *tap) for tap in taps)
    return struct.pack(">4sHHI", b"TAP2", len(taps), 0, validator) + body

def ms(hour):               # of 8 March 2024, UTC
    return int(datetime(2024, 3, 8, hour, tzinfo=timezone.utc).timestamp() * 1000)

card = bytes.fromhex("000000000000000000000000000000a1")
with open("subway.tap", "wb") as file:
    file.write(tap2(1000, [(card, ms(8)), (card, ms(15))]))
with open("bus.tap", "wb") as file:
    file.write(tap1([(card, 2000, ms(11))]))
