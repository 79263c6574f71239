#!/usr/bin/env python3
"""Checks the checking tools themselves: the documents' own examples, round trips, and planted errors.

A planted error is a listing with one rule changed. The default streams must tell every one from the right listing.
"""

from __future__ import annotations

import sys
from collections.abc import Iterator
from dataclasses import replace
from random import Random

from streams import EDGES, stream, valid_message
from wire import (
    END_OF_SESSION, EVI, HALTED, ISSUER, NO_LIMIT, PRINTABLE, RIGHT, SELL,
    Cancel, Order, Packet, Rules, Second, TradingState, block, decode_message, header, listing, packet, read_packet,
)

SEEDS = range(300)

PLANTED: dict[str, Rules] = {
    "packets of 20 bytes refused": replace(RIGHT, least_packet=21),
    "blocks may end at 1,473": replace(RIGHT, packet_end=1_473),
    "blocks must end before 1,472": replace(RIGHT, packet_end=1_471),
    "numbers up to 2^64": replace(RIGHT, number_top=2**64),
    "numbers up to 2^64 - 2": replace(RIGHT, number_top=2**64 - 2),
    "a window of 1,473 bytes": replace(RIGHT, window=1_473),
    "a window of 1,472 bytes": replace(RIGHT, window=1_472),
    "65,535 carries blocks": replace(RIGHT, end_carries_none=False),
    "65,535 added to the first number": replace(RIGHT, sum_of_count=True),
    "cause 4 judged after the blocks": replace(RIGHT, sum_first=False),
    "cut length field past 1,470 taken as 3": replace(RIGHT, cut_field_first=False),
    "block cut off and too long taken as 2": replace(RIGHT, limit_first=False),
    "longer messages read": replace(RIGHT, exact_length=False),
    "units from 0": replace(RIGHT, units=range(0, 1_000_000)),
    "units up to 1,000,000": replace(RIGHT, units=range(1, 1_000_001)),
    "price 0 allowed": replace(RIGHT, prices=range(0, 1_999_999_901, 100)),
    "prices from 200": replace(RIGHT, prices=range(200, 1_999_999_901, 100)),
    "prices up to 2,000,000,000": replace(RIGHT, prices=range(100, 2_000_000_001, 100)),
    "prices below 1,999,999,900": replace(RIGHT, prices=range(100, 1_999_999_900, 100)),
    "prices of a part of a cent": replace(RIGHT, prices=range(100, 1_999_999_901)),
    "bids without limit": replace(RIGHT, no_limit_sides=b"BS"),
    "sales without limit refused": replace(RIGHT, no_limit_sides=b""),
    "state Q refused": replace(RIGHT, halted=b"HP"),
    "state V allowed": replace(RIGHT, halted=b"HPQV"),
    "price reported at 32": replace(RIGHT, price_offset=32),
    "last wrong field reported": replace(RIGHT, reported_field=-1),
    "7F printed as itself": replace(RIGHT, printable=PRINTABLE | {0x7F}),
    "1F printed as itself": replace(RIGHT, printable=PRINTABLE | {0x1F}),
    "7E escaped": replace(RIGHT, printable=PRINTABLE - {0x7E}),
    "backslash printed as itself": replace(RIGHT, printable=PRINTABLE | {0x5C}),
    "hours start again at 24": replace(RIGHT, hours_wrap=True),
}

# The lines that docs/FORMATS.md shows, and bytes that must give them.
EXAMPLE_MESSAGES = [
    Second(28_800).encode(),
    TradingState(state=HALTED).encode(),
    TradingState().encode(),
    Order(b"BID00000000001", units=60, price=120_000, firm=b"BRKA").encode(),
    Order(b"SALE0000000001", SELL, 100, EVI, 115_000, firm=ISSUER).encode(),
    Order(b"SALE0000000001", SELL, 100, EVI, NO_LIMIT, firm=ISSUER).encode(),
    Cancel(b"BID00000000001").encode(),
    b"Z",
    Order(side=ord("Z")).encode(),
]
EXAMPLE_SESSION = b"EVIX000001"
EXAMPLE = (
    packet(EXAMPLE_MESSAGES, 1, EXAMPLE_SESSION)
    + packet([], 6, EXAMPLE_SESSION)
    + packet([], 6, EXAMPLE_SESSION, END_OF_SESSION)
    + header(6, 2) + block(bytes(19)) + b"\0"
)
EXAMPLE_LINES = r"""
PACKET session "EVIX000001" first 1 count 9
1 T second 28800 (08:00:00)
2 H stock "STCK    " halted
3 H stock "STCK    " trading
4 O buy token "BID00000000001" units 60 stock "EVIX    " limit 1200 firm "BRKA"
5 O sell token "SALE0000000001" units 100 stock "EVIX    " limit 1150 firm "ISSR"
6 O sell token "SALE0000000001" units 100 stock "EVIX    " no limit firm "ISSR"
7 X token "BID00000000001" units 0
8 REFUSED 8 message 8: unknown kind or wrong length
9 REFUSED 9 message 15: side, units, price or state not allowed
PACKET session "EVIX000001" first 6 count 0 (heartbeat)
PACKET session "EVIX000001" first 6 count 65535 (end of session)
FAULT 2 packet 41: block passes the end of the bytes
""".strip().split("\n")

# One packet with every byte written out, so that the layouts do not rest on the encoders.
SPELLED = bytes.fromhex(
    "45564958225c7f00ff20 0000000000000102 0004"
    "0005 54 00015f90"
    "0013 48 01020304 5354434b20202020 50 00 49504f31"
    "0031 4f 53414c4530303030303030303031 53 000f423f 4556495820202020 773593 9c 0001869e 49535352 592041000000004e4e"
    "0013 58 53414c4530303030303030303031 00000fa0"
)
SPELLED_LINES = r"""
PACKET session "EVIX\x22\x5c\x7f\x00\xff " first 258 count 4
258 T second 90000 (25:00:00)
259 H stock "STCK    " halted
260 O sell token "SALE0000000001" units 999999 stock "EVIX    " limit 19999999 firm "ISSR"
261 X token "SALE0000000001" units 4000
""".strip().split("\n")


def default_streams() -> Iterator[tuple[str, bytes]]:
    yield from EDGES.items()
    yield from ((f"seed {seed}", stream(seed)) for seed in SEEDS)


def check_examples() -> bool:
    good = listing(EXAMPLE) == EXAMPLE_LINES and listing(SPELLED) == SPELLED_LINES
    print(f"examples of the documents: {'as shown' if good else 'NOT as shown'}")
    return good


def check_round_trips(rounds: int = 3_000) -> bool:
    """Valid messages, and packets of them, decode to what was encoded."""
    rng = Random(0)
    wrong = 0
    for number in range(rounds):
        messages = [valid_message(rng) for _ in range(rng.randrange(5))]
        wrong += any(decode_message(message.encode(), number) != message for message in messages)
        encoded = [message.encode() for message in messages]
        session, first = rng.randbytes(10), rng.getrandbits(63)
        parsed = read_packet(packet(encoded, first, session))
        wrong += parsed != Packet(session, first, len(encoded), encoded)
    print(f"round trips: {rounds} packets, {wrong} wrong")
    return wrong == 0


def check_seeds() -> bool:
    """A seed gives the same stream again, and seeds differ."""
    streams = [stream(seed) for seed in range(60)]
    good = streams == [stream(seed) for seed in range(60)] and len(set(streams)) > 55
    print(f"streams by seed: {'the same again' if good else 'NOT the same again'}")
    return good


def check_window(right: dict[str, tuple[bytes, list[str]]]) -> bool:
    """The documents say that no answer depends on a byte of a packet past the first 1,474."""
    rules = replace(RIGHT, window=1_474)
    other = [name for name, (data, lines) in right.items() if listing(data, rules) != lines]
    print(f"a window of 1,474 bytes: {f'changes {other[0]}' if other else 'changes nothing'}")
    return not other


def told_apart_by(rules: Rules, right: dict[str, tuple[bytes, list[str]]]) -> str | None:
    """The first default stream that a planted error lists otherwise."""
    return next((name for name, (data, lines) in right.items() if listing(data, rules) != lines), None)


def check_planted(right: dict[str, tuple[bytes, list[str]]]) -> bool:
    told = 0
    for error, rules in PLANTED.items():
        name = told_apart_by(rules, right)
        told += name is not None
        print(f"  {error}: {'NOT told apart' if name is None else f'told apart by {name}'}")
    print(f"planted errors: {told} of {len(PLANTED)} told apart")
    return told == len(PLANTED)


def main() -> int:
    right = {name: (data, listing(data)) for name, data in default_streams()}
    checks = [check_examples(), check_round_trips(), check_seeds()]
    checks += [check(right) for check in (check_window, check_planted)]
    print(f"self check: {'good' if all(checks) else 'BAD'}")
    return 0 if all(checks) else 1


if __name__ == "__main__":
    sys.exit(main())
