#!/usr/bin/env python3
"""Writes the sample capture, a short morning's traffic, and its expected listing.

    tools/make_sample.py STREAM LISTING
"""

from __future__ import annotations

import argparse
from pathlib import Path

from wire import (
    END_OF_SESSION, EVI, HALTED, ISSUER, NO_LIMIT, SELL, TRADING,
    Cancel, Order, Second, TradingState, listing, packet, printed,
)

FIRST_SALE = b"SALE0000000001"
SECOND_SALE = b"SALE0000000002"


def bid(number: int, units: int, cents: int, firm: bytes = b"BRKA") -> bytes:
    return Order(b"BID%011d" % number, units=units, price=100 * cents, firm=firm).encode()


def sale(token: bytes, units: int, cents: int | None) -> bytes:
    price = NO_LIMIT if cents is None else 100 * cents
    return Order(token, SELL, units, EVI, price, firm=ISSUER).encode()


def unknown_kind() -> bytes:
    return b"U" + Cancel().encode()[1:]


def bad_side() -> bytes:
    return Order(b"BID00000000005", ord("T"), 10, EVI, 112_000, firm=b"BRKC").encode()


def packets() -> list[list[bytes]]:
    """The messages of each packet; an empty list is a heartbeat."""
    return [
        [Second(28_800).encode(), sale(FIRST_SALE, 100, None), bid(1, 60, 1200), bid(2, 50, 1100, b"BRKB")],
        [Second(28_801).encode(), Cancel(FIRST_SALE).encode(), sale(SECOND_SALE, 100, 1150), bid(3, 25, 1175)],
        [],
        [Second(28_802).encode(), TradingState(state=HALTED).encode(), unknown_kind(), bid(4, 1_000_000, 1160),
         bad_side()],
        [Second(28_803).encode(), TradingState(state=TRADING).encode(), bid(6, 40, 1150, b"BRKB"),
         Cancel(b"BID00000000002").encode(), Cancel(SECOND_SALE, 80).encode()],
    ]


def sample() -> bytes:
    parts: list[bytes] = []
    first = 1
    for messages in packets():
        parts.append(packet(messages, first))
        first += len(messages)
    parts.append(packet(first=first, count=END_OF_SESSION))
    cut = packet([Second(28_804).encode(), bid(7, 30, 1190)], first)[:-9]
    return b"".join(parts) + cut


def main() -> None:
    parser = argparse.ArgumentParser(description="Write the sample capture and its expected listing.")
    parser.add_argument("stream", type=Path)
    parser.add_argument("listing", type=Path)
    given = parser.parse_args()
    data = sample()
    given.stream.write_bytes(data)
    given.listing.write_bytes(printed(listing(data)))


if __name__ == "__main__":
    main()
