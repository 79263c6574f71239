"""Fixed streams, by name, that go over every edge of the formats."""

from __future__ import annotations

from collections.abc import Iterator
from itertools import product

from wire import (
    BUY, END_OF_SESSION, HALTED, KINDS, NO_LIMIT, NUMBER_TOP, SELL, SESSION, TRADING,
    Cancel, Order, Second, TradingState, block, capture, header, packet,
)

Named = Iterator[tuple[str, bytes]]

PACKET_END = 1_472
UNITS = (0, 1, 2, 999_998, 999_999, 1_000_000, 1_000_001, 2**31, 2**32 - 1)
PRICES = (
    0, 1, 99, 100, 101, 199, 200, 1_999_999_800, 1_999_999_899, 1_999_999_900, 1_999_999_901, 2_000_000_000,
    0x7FFFFFFE, NO_LIMIT, 0x80000000, 0xFFFFFFFF,
)
SECONDS = (0, 1, 59, 60, 3_599, 3_600, 35_999, 36_000, 86_399, 86_400, 359_999, 360_000, 2**32 - 1)
CANCEL_UNITS = (0, 1, 999_999, 1_000_000, 2**31, 2**32 - 1)

# One message of each kind, both sides, no limit and both states.
GOOD_MESSAGES = [
    Second().encode(),
    TradingState(state=HALTED).encode(),
    TradingState(state=TRADING).encode(),
    Order(units=60).encode(),
    Order(token=b"SALE0000000001", side=SELL, units=100, firm=b"ISSR").encode(),
    Order(token=b"SALE0000000002", side=SELL, price=NO_LIMIT, firm=b"ISSR").encode(),
    Cancel().encode(),
]
GOOD = packet(GOOD_MESSAGES) + packet(first=8) + packet(GOOD_MESSAGES[::-1], first=8)


def filler(offset: int) -> bytes:
    """One block from byte 20 to an offset, or none if the offset is 20."""
    return block(bytes(offset - 22)) if offset > 20 else b""


def sized_packet(size: int, first: int) -> bytes:
    """A packet of exactly `size` bytes (20, or 22 and more): orders, then one block of what room is left."""
    room, messages = size - 20, []
    while room > 0:
        order = Order(token=b"%014d" % (first + len(messages))).encode()
        messages.append(order if room >= 53 else (order + b"?")[: room - 2])
        room -= 2 + len(messages[-1])
    return packet(messages, first)


def sized_stream(size: int) -> bytes:
    """Packets of exactly `size` bytes together."""
    parts, left = [], size
    while left > PACKET_END:
        part = min(PACKET_END, left - 22)
        parts.append(sized_packet(part, size - left))
        left -= part
    return b"".join(parts) + sized_packet(left, size - left)


def header_edges() -> Named:
    """Every number of bytes up to a header's, then counts that ask for blocks where no byte is left."""
    for size in range(1, 20):
        yield f"{size} bytes", header()[:size]
    for count in (0, 1, 2, 65_534, END_OF_SESSION):
        yield f"20 bytes, count {count}", header(count=count)
    yield "19 bytes of a count above the top", header(NUMBER_TOP, 1)[:19]
    yield "20 bytes of FF", b"\xff" * 20
    yield "2000 bytes of FF", b"\xff" * 2000
    yield "2000 bytes of 00", bytes(2000)


def length_edges() -> Named:
    """A length field at an offset: cut off, or whole with a block that fits, is cut off or is too long."""
    for offset in (20, 22, 41, 1_468, 1_469, 1_470, 1_471, 1_472):
        start = header(count=1 + (offset > 20)) + filler(offset)
        for name, byte in (("nothing", b""), ("00", b"\0"), ("FF", b"\xff")):
            yield f"length at {offset} cut to {name}", start + byte
        fit = PACKET_END - offset - 2
        for length in sorted({0, 1, 19, 65_535} | {n for n in (fit - 1, fit, fit + 1) if n >= 0}):
            for present in sorted({0, max(min(length, 2_000) - 1, 0), min(length, 2_000)}):
                yield f"length at {offset}, {present} bytes of {length}", start + block(bytes(present), length)
        if fit >= 0:
            for present in range(fit, fit + 4):
                yield f"length at {offset}, one too long, {present} bytes", start + block(bytes(present), fit + 1)


def filled(end: int, size: int) -> list[bytes]:
    """Messages of one size, but for the last, whose block ends at byte `end` of the packet."""
    whole = (end - 20 - 2) // (size + 2)
    return [bytes(size)] * whole + [bytes(end - 20 - 2 - whole * (size + 2))]


def many_block_edges() -> Named:
    """Packets of many blocks that end at byte 1,472 or about it."""
    for size, end in product((1, 5, 19, 49, 400), (1_471, 1_472, 1_473)):
        yield f"blocks of {size} to byte {end}", packet(filled(end, size))
        yield f"blocks of {size} to byte {end}, packet after", packet(filled(end, size)) + GOOD
        yield f"blocks of {size} to byte {end}, cut by 1", packet(filled(end, size))[:-1]
    for blocks in (725, 726, 727, 728):
        yield f"{blocks} empty blocks", packet([b""] * blocks)
        yield f"{blocks} empty blocks, packet after", packet([b""] * blocks) + GOOD
    for count, size in product((726, 727), (1_469, 1_470, 1_471, 1_472, 1_473, 1_474)):
        yield f"{count} empty blocks, {size} bytes", packet([b""] * 728, count=count)[:size]


def pass_edges() -> Named:
    """A last block that passes the end of the bytes by one."""
    for size in (1, 5, 19, 49, 1_450):
        yield f"block of {size} passes the end by 1", packet([bytes(size)])[:-1]
    for name, at in (("second", 1), ("last", len(GOOD_MESSAGES) - 1)):
        whole = packet(GOOD_MESSAGES[: at + 1])
        yield f"{name} block passes the end by 1", whole[:-1]
        yield f"{name} block's length is one too high", packet(GOOD_MESSAGES[:at], count=at + 1) + block(
            GOOD_MESSAGES[at], len(GOOD_MESSAGES[at]) + 1
        )


def number_edges() -> Named:
    """First numbers near the top, with every sort of count."""
    for count, blocks in ((0, 0), (1, 1), (2, 2), (726, 726), (727, 727), (65_534, 65_534), (END_OF_SESSION, 0)):
        body = block(b"") * min(blocks, 730)
        for total in range(NUMBER_TOP - 1, NUMBER_TOP + 3):
            first = total - blocks
            if first <= NUMBER_TOP:
                name = f"first {first} count {count}"
                yield name, header(first, count) + body
                yield f"{name}, packet after", header(first, count) + body + GOOD
                if blocks:
                    yield f"{name}, no blocks", header(first, count)
    yield "first at the top, count 65534", header(NUMBER_TOP, 65_534) + GOOD
    yield "first above the top by 65535 blocks", header(NUMBER_TOP - 65_534, 65_535) + GOOD
    yield "above the top and too long", header(NUMBER_TOP, 1) + block(bytes(1_451))
    yield "above the top and cut off", header(NUMBER_TOP, 1) + b"\0"
    yield "last numbers", packet(GOOD_MESSAGES, NUMBER_TOP - len(GOOD_MESSAGES)) + packet(first=NUMBER_TOP)
    for first in (0, 2**31, 2**32 - 3, 2**32, 2**63 - 3, 2**63):
        yield f"numbers from {first}", packet(GOOD_MESSAGES, first)


def count_edges() -> Named:
    """Counts that are not the number of blocks written, with bytes following."""
    held = len(GOOD_MESSAGES)
    for count in (0, 1, held - 1, held + 1, 255, 256, 65_533, 65_534, END_OF_SESSION):
        yield f"count {count} of {held}", packet(GOOD_MESSAGES, count=count)
        yield f"count {count} of {held}, packet after", packet(GOOD_MESSAGES, count=count) + GOOD
    for count in (0, END_OF_SESSION):
        yield f"count {count}, packet after", header(8, count) + GOOD
        yield f"count {count} three times, packet after", header(8, count) * 3 + GOOD
        yield f"count {count}, 1 byte after", header(8, count) + b"E"


def kind_edges() -> Named:
    """Every byte value as a kind; every kind at every length about its own."""
    for size in (1, 5, 19, 49):
        yield f"every kind, {size} bytes", capture(bytes([kind]) * size for kind in range(256))
        yield f"every kind, {size} bytes, zeros", capture(bytes([kind]) + bytes(size - 1) for kind in range(256))
    for kind, message in (("T", 0), ("H", 2), ("O", 3), ("X", 6)):
        whole = GOOD_MESSAGES[message]
        size = KINDS[kind.encode()].LAYOUT.size
        lengths = sorted({0, 1, 4, 5, 6, 18, 19, 20, 48, 49, 50, 256 + size, 512 + size})
        yield f"{kind} at other lengths", capture((whole + bytes(600))[:length] for length in lengths)
        yield f"{kind} after kind byte {kind.lower()}", capture([kind.lower().encode() + whole[1:], whole])


def field_edges() -> Named:
    """Each field inside and outside its range."""
    sides = (BUY, SELL)
    yield "units", capture(Order(side=s, units=u).encode() for s, u in product(sides, UNITS))
    yield "prices", capture(Order(side=s, price=p).encode() for s, p in product(sides, PRICES))
    yield "sides", capture(Order(side=s).encode() for s in range(256))
    yield "sides without limit", capture(Order(side=s, price=NO_LIMIT).encode() for s in range(256))
    yield "states", capture(TradingState(state=s).encode() for s in range(256))
    yield "seconds", capture(Second(second).encode() for second in SECONDS)
    yield "cancel units", capture(Cancel(units=units).encode() for units in CANCEL_UNITS)
    several = product((BUY, SELL, 0, ord("T"), ord("b")), UNITS, PRICES)
    yield "several fields", capture(Order(side=s, units=u, price=p).encode() for s, u, p in several)
    unread = [0, 0xFF]
    yield "fields not read", capture(
        message
        for byte in unread
        for message in (
            TradingState(nanoseconds=byte << 24, reserved=byte, reason=bytes([byte]) * 4).encode(),
            Order(time_in_force=byte << 24, more=bytes([byte]) * 9).encode(),
        )
    )


def text_edges() -> Named:
    """Every byte value in every field of text, and the longest lines there can be."""
    for byte_set, name in ((range(0, 128), "low"), (range(128, 256), "high")):
        texts = [bytes([byte]) for byte in byte_set]
        yield f"tokens, {name}", capture(Order(token=t * 14).encode() for t in texts)
        yield f"cancel tokens, {name}", capture(Cancel(token=t * 14).encode() for t in texts)
        yield f"order stocks, {name}", capture(Order(stock=t * 8).encode() for t in texts)
        yield f"stocks, {name}", capture(TradingState(stock=t * 8).encode() for t in texts)
        yield f"firms, {name}", capture(Order(firm=t * 4).encode() for t in texts)
        yield f"sessions, {name}", b"".join(packet(session=t * 10) for t in texts)
    ramp = bytes(range(256)) * 2
    yield "ramps of bytes", b"".join(
        packet([Order(token=ramp[k : k + 14], stock=ramp[k + 1 : k + 9], firm=ramp[k + 2 : k + 6]).encode()], k,
               session=ramp[k + 3 : k + 13])
        for k in range(0, 256, 3)
    )
    raw = Order(b"\xff" * 14, SELL, 999_999, b"\xff" * 8, 1_999_999_900, 0, b"\xff" * 4).encode()
    longest = [raw, Cancel(b"\xff" * 14, 2**32 - 1).encode(), Second(2**32 - 1).encode()] * 15
    yield "longest lines", packet(longest, NUMBER_TOP - 45, b"\xff" * 10) * 40 + packet(
        first=NUMBER_TOP, session=b"\xff" * 10, count=END_OF_SESSION
    )


def long_edges() -> Named:
    """Long streams, so that a reader's window is refilled many times."""
    sizes = [20, *range(22, PACKET_END + 1)]
    yield "every packet size", b"".join(sized_packet(size, size) for size in sizes)
    yield "every packet size, large and small", b"".join(
        sized_packet(a, a) + sized_packet(b, b) for a, b in list(zip(sizes, reversed(sizes)))[::4]
    )
    yield "heartbeats", b"".join(packet(first=first) for first in range(12_000))
    yield "heartbeats, then 7 bytes", packet([b""]) + packet(first=2) * 12_000 + SESSION[:7]
    yield "largest packets", sized_packet(PACKET_END, 1) * 200
    yield "largest packets, then one too long", sized_packet(PACKET_END, 1) * 200 + packet([bytes(1_451)])
    for size in (1_473, 2_948, 4_096, 8_192, 16_384, 65_536, 131_072):
        for total in (size - 1, size, size + 1):
            yield f"{total} bytes of packets", sized_stream(total)
        yield f"{size} bytes of packets, then 19 bytes", sized_stream(size) + header()[:19]
        yield f"{size} bytes, a packet cut by 1", sized_stream(size + 1)[:-1]


def named(*groups: Named) -> dict[str, bytes]:
    streams: dict[str, bytes] = {}
    for name, stream in (pair for group in groups for pair in group):
        if name in streams:
            raise ValueError(f"two edges named {name}")
        streams[name] = stream
    return streams


def all_edges() -> dict[str, bytes]:
    """Packet edges alone and after good packets; then the edges of messages; then long streams."""
    packets = named(header_edges(), length_edges(), many_block_edges(), pass_edges(), number_edges(), count_edges())
    after = ((f"good, then {name}", GOOD + stream) for name, stream in packets.items())
    simple = (("empty", b""), ("good", GOOD), ("good, end of session", GOOD + header(15, END_OF_SESSION)))
    return named(iter(simple), iter(packets.items()), after, kind_edges(), field_edges(), text_edges(), long_edges())


EDGES = all_edges()
