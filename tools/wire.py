"""Packets and messages: encoders, decoders and the listing that `packets` must print.

Written from docs/FORMATS.md and docs/REFUSALS.md alone. The encoders judge nothing, so that broken streams can be
written too.
"""

from __future__ import annotations

import struct
from collections.abc import Iterable
from dataclasses import dataclass
from typing import ClassVar

SESSION = b"EVIX261117"
EVI = b"EVIX    "
STOCK = b"STCK    "
ISSUER = b"ISSR"
BUY, SELL = b"BS"
HALTED, TRADING = b"HT"
END_OF_SESSION = 65_535
NO_LIMIT = 0x7FFFFFFF
NUMBER_TOP = 2**64 - 1
HEADER = struct.Struct(">10sQH")
LENGTH = struct.Struct(">H")
PRINTABLE = frozenset(range(0x20, 0x7F)) - frozenset(b'"\\')

# The causes that a listing can name: layer and words.
CAUSES = {
    1: ("packet", "packet under 20 bytes"),
    2: ("packet", "block passes the end of the bytes"),
    3: ("packet", "block ends past byte 1472"),
    4: ("packet", "first number plus blocks above 2^64 - 1"),
    8: ("message", "unknown kind or wrong length"),
    9: ("message", "side, units, price or state not allowed"),
}


@dataclass(frozen=True)
class Rules:
    """What the documents lay down. self_check.py changes one field at a time to plant an error."""

    least_packet: int = 20
    packet_end: int = 1_472  # the offset at or before which every block ends
    number_top: int = NUMBER_TOP
    window: int | None = None  # how many bytes of the stream a packet is read from; None is all
    end_carries_none: bool = True  # a count of 65,535 carries no blocks
    sum_of_count: bool = False  # cause 4 takes the count as it stands, even 65,535
    sum_first: bool = True  # cause 4 is judged before the blocks
    cut_field_first: bool = True  # a cut length field is 2 even where it lies past the packet's end
    limit_first: bool = True  # a block too long and cut off is 3
    exact_length: bool = True  # a message longer than its kind is refused
    units: range = range(1, 1_000_000)
    prices: range = range(100, 1_999_999_901, 100)
    no_limit_sides: bytes = b"S"
    halted: bytes = b"HPQ"
    price_offset: int = 28
    reported_field: int = 0  # which of several wrong fields stands beside cause 9
    printable: frozenset[int] = PRINTABLE
    hours_wrap: bool = False  # hours start again at 24


RIGHT = Rules()


@dataclass(frozen=True)
class Fault:
    cause: int
    beside: int

    def __str__(self) -> str:
        layer, words = CAUSES[self.cause]
        return f"{self.cause} {layer} {self.beside}: {words}"


class Message:
    """A message of a known kind. A subclass has the fields of its layout, in order, after the kind."""

    KIND: ClassVar[bytes]
    LAYOUT: ClassVar[struct.Struct]

    def encode(self) -> bytes:
        return self.LAYOUT.pack(self.KIND, *vars(self).values())


@dataclass(frozen=True)
class Second(Message):
    KIND = b"T"
    LAYOUT = struct.Struct(">cI")
    second: int = 28_800


@dataclass(frozen=True)
class TradingState(Message):
    KIND = b"H"
    LAYOUT = struct.Struct(">cI8sBB4s")
    nanoseconds: int = 0
    stock: bytes = STOCK
    state: int = TRADING
    reserved: int = 0x20
    reason: bytes = b"    "


@dataclass(frozen=True)
class Order(Message):
    KIND = b"O"
    LAYOUT = struct.Struct(">c14sBI8sII4s9s")
    token: bytes = b"BID00000000001"
    side: int = BUY
    units: int = 1
    stock: bytes = EVI
    price: int = 120_000
    time_in_force: int = 99_998
    firm: bytes = b"BRKA"
    more: bytes = b"Y A\0\0\0\0NN"


@dataclass(frozen=True)
class Cancel(Message):
    KIND = b"X"
    LAYOUT = struct.Struct(">c14sI")
    token: bytes = b"BID00000000001"
    units: int = 0


KINDS: dict[bytes, type[Message]] = {kind.KIND: kind for kind in (Second, TradingState, Order, Cancel)}


@dataclass(frozen=True)
class Packet:
    session: bytes
    first: int
    count: int
    messages: list[bytes]

    def size(self) -> int:
        return HEADER.size + sum(LENGTH.size + len(message) for message in self.messages)


# Encoders.


def header(first: int = 1, count: int = 0, session: bytes = SESSION) -> bytes:
    return HEADER.pack(session, first, count)


def block(message: bytes, length: int | None = None) -> bytes:
    """A block; its length field is the message's own length unless another is given."""
    return LENGTH.pack(len(message) if length is None else length) + message


def packet(messages: Iterable[bytes] = (), first: int = 1, session: bytes = SESSION, count: int | None = None) -> bytes:
    """A packet; its count is the number of its blocks unless another is given."""
    blocks = [block(message) for message in messages]
    return header(first, len(blocks) if count is None else count, session) + b"".join(blocks)


def capture(messages: Iterable[bytes], first: int = 1, session: bytes = SESSION) -> bytes:
    """The messages in packets as full as they may be, numbered upward from the first."""
    parts: list[bytes] = []
    held: list[bytes] = []
    end = HEADER.size
    for message in messages:
        if end + LENGTH.size + len(message) > RIGHT.packet_end:
            parts.append(packet(held, first, session))
            first, held, end = first + len(held), [], HEADER.size
        held.append(message)
        end += LENGTH.size + len(message)
    return b"".join(parts) + packet(held, first, session)


# Decoders.


def read_length(stream: bytes, at: int, offset: int, left: int, rules: Rules) -> int | Fault:
    """The length of the block at an offset of the packet at `at`, of which `left` bytes are at hand."""
    start = offset + LENGTH.size
    if start > left:
        return Fault(2 if rules.cut_field_first or start <= rules.packet_end else 3, offset)
    (length,) = LENGTH.unpack_from(stream, at + offset)
    too_long, cut_off = start + length > rules.packet_end, start + length > left
    if too_long and (rules.limit_first or not cut_off):
        return Fault(3, offset)
    return Fault(2, offset) if cut_off else length


def read_blocks(stream: bytes, at: int, blocks: int, left: int, rules: Rules) -> list[bytes] | Fault:
    messages: list[bytes] = []
    offset = HEADER.size
    for _ in range(blocks):
        length = read_length(stream, at, offset, left, rules)
        if isinstance(length, Fault):
            return length
        start = at + offset + LENGTH.size
        messages.append(stream[start : start + length])
        offset += LENGTH.size + length
    return messages


def read_packet(stream: bytes, at: int = 0, rules: Rules = RIGHT) -> Packet | Fault:
    """The packet that begins at byte `at` of the stream."""
    left = len(stream) - at
    if rules.window is not None:
        left = min(left, rules.window)
    if left < rules.least_packet:
        return Fault(1, left)
    session, first, count = HEADER.unpack_from(stream, at)
    blocks = 0 if count == END_OF_SESSION and rules.end_carries_none else count
    messages = read_blocks(stream, at, blocks, left, rules)
    above = first + (count if rules.sum_of_count else blocks) > rules.number_top
    if above and (rules.sum_first or not isinstance(messages, Fault)):
        return Fault(4, first)
    if isinstance(messages, Fault):
        return messages
    return Packet(session, first, count, messages)


def wrong_fields(message: Message, rules: Rules) -> list[int]:
    """The offsets of the fields whose values are not allowed, in order."""
    if isinstance(message, TradingState):
        return [] if message.state in rules.halted or message.state == TRADING else [13]
    if not isinstance(message, Order):
        return []
    side_allowed = message.side in (BUY, SELL)
    no_limit = message.price == NO_LIMIT and message.side in rules.no_limit_sides
    judged = {
        15: side_allowed,
        16: message.units in rules.units,
        rules.price_offset: not side_allowed or no_limit or message.price in rules.prices,
    }
    return [offset for offset, allowed in judged.items() if not allowed]


def decode_message(message: bytes, number: int, rules: Rules = RIGHT) -> Message | Fault:
    kind = KINDS.get(message[:1])
    if kind is None or len(message) < kind.LAYOUT.size:
        return Fault(8, number)
    if len(message) > kind.LAYOUT.size and rules.exact_length:
        return Fault(8, number)
    decoded = kind(*kind.LAYOUT.unpack_from(message)[1:])
    wrong = wrong_fields(decoded, rules)
    return Fault(9, wrong[rules.reported_field]) if wrong else decoded


# The listing.


def quote(text: bytes, rules: Rules = RIGHT) -> str:
    return '"' + "".join(chr(byte) if byte in rules.printable else f"\\x{byte:02x}" for byte in text) + '"'


def time_of_day(second: int, rules: Rules = RIGHT) -> str:
    hours = second // 3600
    if rules.hours_wrap:
        hours %= 24
    return f"{hours:02}:{second // 60 % 60:02}:{second % 60:02}"


def packet_line(parsed: Packet, rules: Rules = RIGHT) -> str:
    remark = {0: " (heartbeat)", END_OF_SESSION: " (end of session)"}.get(parsed.count, "")
    return f"PACKET session {quote(parsed.session, rules)} first {parsed.first} count {parsed.count}{remark}"


def order_words(order: Order, rules: Rules) -> str:
    side = "buy" if order.side == BUY else "sell"
    limit = "no limit" if order.price == NO_LIMIT else f"limit {order.price // 100}"
    token, stock, firm = (quote(text, rules) for text in (order.token, order.stock, order.firm))
    return f"O {side} token {token} units {order.units} stock {stock} {limit} firm {firm}"


def message_line(number: int, message: bytes, rules: Rules = RIGHT) -> str:
    match decode_message(message, number, rules):
        case Fault() as fault:
            words = f"REFUSED {fault}"
        case Second(second):
            words = f"T second {second} ({time_of_day(second, rules)})"
        case TradingState(stock=stock, state=state):
            words = f"H stock {quote(stock, rules)} {'trading' if state == TRADING else 'halted'}"
        case Cancel(token, units):
            words = f"X token {quote(token, rules)} units {units}"
        case Order() as order:
            words = order_words(order, rules)
    return f"{number} {words}"


def listing(stream: bytes, rules: Rules = RIGHT) -> list[str]:
    """The lines that `packets` must print for a stream."""
    lines: list[str] = []
    at = 0
    while at < len(stream):
        parsed = read_packet(stream, at, rules)
        if isinstance(parsed, Fault):
            lines.append(f"FAULT {parsed}")
            break
        lines.append(packet_line(parsed, rules))
        for place, message in enumerate(parsed.messages):
            lines.append(message_line(parsed.first + place, message, rules))
        at += parsed.size()
    return lines


def printed(lines: Iterable[str]) -> bytes:
    """The lines as bytes on standard output."""
    return "".join(line + "\n" for line in lines).encode("ascii")
