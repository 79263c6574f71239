"""Streams made from a seed, and the fixed edges. The same seed always gives the same stream."""

from __future__ import annotations

from collections.abc import Callable
from random import Random

from edges import CANCEL_UNITS, EDGES, PACKET_END, PRICES, SECONDS, UNITS
from wire import (
    BUY, END_OF_SESSION, EVI, ISSUER, NO_LIMIT, NUMBER_TOP, SELL, SESSION, STOCK,
    Cancel, Message, Order, Second, TradingState, block, header, packet,
)

__all__ = ["EDGES", "stream"]

MakeMessage = Callable[[Random], bytes]
LETTERS = b"ABCDEFGHIJKLMNOPQRSTUVWXYZ0123456789 "


# Messages.


def text(rng: Random, size: int, usual: bytes | None = None) -> bytes:
    """A field of text: the usual one, letters, or any bytes at all."""
    if usual is not None and rng.random() < 0.6:
        return usual
    return bytes(rng.choices(LETTERS, k=size)) if rng.random() < 0.6 else rng.randbytes(size)


def good_price(rng: Random, side: int) -> int:
    if side == SELL and rng.random() < 0.3:
        return NO_LIMIT
    return 100 * rng.randint(1, rng.choice((2_000, 19_999_999)))


def valid_message(rng: Random) -> Message:
    """A message that is not refused, its unread fields any bytes."""
    match rng.choice("THOOOX"):
        case "T":
            return Second(rng.choice((rng.randrange(86_400), rng.getrandbits(32))))
        case "H":
            unread = rng.getrandbits(32), rng.getrandbits(8), rng.randbytes(4)
            return TradingState(unread[0], text(rng, 8, STOCK), rng.choice(b"HPQTTT"), *unread[1:])
        case "X":
            return Cancel(text(rng, 14), rng.choice((0, rng.randrange(1_000_000), rng.getrandbits(32))))
    side = rng.choice((BUY, BUY, SELL))
    units, price = rng.randint(1, 999_999), good_price(rng, side)
    firm = text(rng, 4, ISSUER)
    return Order(text(rng, 14), side, units, text(rng, 8, EVI), price, rng.getrandbits(32), firm, rng.randbytes(9))


def good(rng: Random) -> bytes:
    return valid_message(rng).encode()


def at_the_edge(rng: Random) -> bytes:
    """A message whose fields are at the edges of their ranges."""
    match rng.choice("THOOX"):
        case "T":
            return Second(rng.choice(SECONDS)).encode()
        case "H":
            return TradingState(state=rng.choice((*b"HPQT", rng.getrandbits(8)))).encode()
        case "X":
            return Cancel(text(rng, 14), rng.choice(CANCEL_UNITS)).encode()
    side = rng.choice((BUY, SELL, rng.getrandbits(8)))
    units = rng.choice((1, 999_999, rng.choice(UNITS)))
    price = rng.choice((100, NO_LIMIT, rng.choice(PRICES), rng.getrandbits(32)))
    return Order(text(rng, 14), side, units, EVI, price, firm=text(rng, 4, ISSUER)).encode()


def odd(rng: Random) -> bytes:
    """Mostly good messages, among them some of another length, of any kind, or of any bytes."""
    message = good(rng)
    match rng.randrange(8):
        case 0:
            return message[: rng.randrange(len(message))]
        case 1:
            return message + rng.randbytes(rng.choice((1, 1, 1, rng.randrange(40))))
        case 2:
            return rng.randbytes(1) + message[1:]
        case 3:
            return rng.randbytes(rng.choice((0, 1, 5, 19, 49, rng.randrange(60))))
        case 4:
            return at_the_edge(rng)
    return message


# Streams.


def packets(rng: Random, make: MakeMessage, size: int) -> bytes:
    """Packets numbered upward, some of them heartbeats, of at least the given size together."""
    parts: list[bytes] = []
    done = 0
    first = rng.choice((1, rng.getrandbits(20), rng.getrandbits(63)))
    session = text(rng, 10, SESSION)
    while done < size:
        end, messages = 20, []
        room = rng.choice((20, rng.randint(20, 200), rng.randint(20, PACKET_END), PACKET_END))
        message = make(rng)
        while end + 2 + len(message) <= room:
            messages.append(message)
            end += 2 + len(message)
            message = make(rng)
        ends = not messages and rng.random() < 0.3
        parts.append(packet(messages, first, session, END_OF_SESSION if ends else None))
        first += len(messages)
        done += end
    return b"".join(parts)


def good_stream(rng: Random) -> bytes:
    return packets(rng, good, rng.randrange(6_000))


def odd_stream(rng: Random) -> bytes:
    return packets(rng, odd, rng.randrange(6_000))


def edge_stream(rng: Random) -> bytes:
    return packets(rng, at_the_edge, rng.randrange(6_000))


def mutated(rng: Random) -> bytes:
    """A stream with bits flipped, bytes replaced, put in or taken out, or its end cut off."""
    data = bytearray(packets(rng, odd, rng.randrange(4_000)))
    for _ in range(rng.randint(1, 4)):
        at = rng.randrange(len(data) + 1)
        match rng.randrange(5):
            case 0 if at < len(data):
                data[at] ^= 1 << rng.randrange(8)
            case 1 if at < len(data):
                data[at] = rng.choice((0, 0xFF, rng.getrandbits(8)))
            case 2:
                data[at:at] = rng.randbytes(rng.randint(1, 3))
            case 3:
                del data[at : at + rng.randint(1, 3)]
            case 4:
                del data[at:]
    return bytes(data)


def near_end(rng: Random) -> bytes:
    """Packets whose last block ends about byte 1,472, the stream at times cut off about there."""
    end, target = 20, PACKET_END + rng.randint(-3, 3)
    messages: list[bytes] = []
    most = rng.choice((0, 3, 60, 700))
    while target - end - 2 > most + 2:
        messages.append(odd(rng)[:most] if most <= 60 else rng.randbytes(rng.randint(0, most)))
        end += 2 + len(messages[-1])
    messages.append(rng.randbytes(max(target - end - 2, 0)))
    count = len(messages) + rng.choice((0, 0, 1))
    data = packet(messages, count=count) + rng.choice((b"", rng.randbytes(rng.randrange(8)), packets(rng, good, 100)))
    before = packets(rng, good, rng.choice((0, 500)))
    return before + data[: rng.choice((len(data), PACKET_END + rng.randint(-4, 4)))]


def near_top(rng: Random) -> bytes:
    """Packets whose first number plus blocks is about 2^64 - 1."""
    parts: list[bytes] = []
    for _ in range(rng.randint(1, 6)):
        messages = [odd(rng) for _ in range(rng.choice((0, 1, 2, 20)))]
        count = rng.choice((len(messages), len(messages), len(messages), 65_534, END_OF_SESSION))
        first = NUMBER_TOP - rng.choice((len(messages), count)) + rng.choice((-2, -1, 0, 0, 0, 1))
        parts.append(packet(messages, min(first, NUMBER_TOP), count=count))
    return b"".join(parts)


def shaped(rng: Random) -> bytes:
    """Headers with any small count and blocks with any length fields, over bytes of chance."""
    parts: list[bytes] = []
    for _ in range(rng.randint(1, 5)):
        count = rng.choice((0, 1, 2, 5, rng.randrange(40), END_OF_SESSION))
        parts.append(header(rng.getrandbits(rng.choice((8, 63, 64))), count, rng.randbytes(10)))
        for _ in range(0 if count == END_OF_SESSION else count):
            size = rng.choice((0, 5, 19, 49, rng.randrange(100)))
            parts.append(block(rng.randbytes(size), size + rng.choice((0,) * 60 + (1, -1 if size else 0, 1_451))))
    return b"".join(parts)


def chance(rng: Random) -> bytes:
    return rng.randbytes(rng.choice((rng.randrange(24), rng.randrange(4_000))))


def long_stream(rng: Random) -> bytes:
    """Some hundred KB, at times with a fault at the end."""
    size = rng.choice((20_000, 70_000, 150_000, 300_000))
    return packets(rng, rng.choice((good, odd)), size) + rng.choice((b"", rng.randbytes(19), near_end(rng)))


STYLES: tuple[Callable[[Random], bytes], ...] = (
    good_stream, odd_stream, edge_stream, mutated, near_end, near_top, shaped, mutated, chance, near_end, odd_stream,
    mutated, edge_stream, near_top, long_stream,
)


def stream(seed: int) -> bytes:
    """The stream of a seed. Seeds take turns among the styles."""
    return STYLES[seed % len(STYLES)](Random(seed))
