#!/usr/bin/env python3
"""Compares the layouts with Wireshark's own dissectors of MoldUDP64 and OUCH. By hand, not part of the tests.

    tools/check_tshark.py [STREAM]

It needs tshark (Debian's package of that name). Packets go into UDP datagrams, orders and cancels into SoupBinTCP, each in
a capture file of its own; what tshark reads there is compared with what wire.py reads in the stream.
"""

from __future__ import annotations

import struct
import subprocess
import sys
import tempfile

from wire import Cancel, Fault, Order, Packet, decode_message, read_packet

PORT = 26_400
LOCALHOST = bytes([127, 0, 0, 1])
RAW_IP = 101  # the capture file's link type: packets begin with their IP header
UDP, TCP = 17, 6


def ip(protocol: int, body: bytes) -> bytes:
    return struct.pack(">BBHHHBBH4s4s", 0x45, 0, 20 + len(body), 0, 0, 64, protocol, 0, LOCALHOST, LOCALHOST) + body


def udp(payload: bytes) -> bytes:
    return ip(UDP, struct.pack(">HHHH", PORT, PORT, 8 + len(payload), 0) + payload)


def soup(sequence: int, message: bytes) -> bytes:
    """A message as unsequenced data of SoupBinTCP."""
    segment = struct.pack(">HHIIBBHHH", PORT + 1, PORT, sequence, 1, 0x50, 0x18, 8_192, 0, 0)
    return ip(TCP, segment + struct.pack(">Hc", 1 + len(message), b"U") + message)


def tshark(frames: list[bytes], decode: str, fields: list[str]) -> list[list[str]]:
    """The fields of every frame, as tshark reads them."""
    with tempfile.NamedTemporaryFile(suffix=".pcap") as file:
        file.write(struct.pack("<IHHiIII", 0xA1B2C3D4, 2, 4, 0, 0, 65_535, RAW_IP))
        for second, frame in enumerate(frames):
            file.write(struct.pack("<IIII", second, 0, len(frame), len(frame)) + frame)
        file.flush()
        wanted = [word for name in fields for word in ("-e", name)]
        command = ["tshark", "-r", file.name, "-d", decode, "-T", "fields", *wanted]
        done = subprocess.run(command, capture_output=True, check=True, text=True)
    return [line.split("\t") for line in done.stdout.splitlines()]


def good_packets(stream: bytes) -> list[tuple[bytes, Packet]]:
    packets, at = [], 0
    while at < len(stream) and not isinstance(parsed := read_packet(stream, at), Fault):
        packets.append((stream[at : at + parsed.size()], parsed))
        at += parsed.size()
    return packets


def packets_agree(packets: list[tuple[bytes, Packet]]) -> bool:
    names = ["session", "sequence", "count", "msgseq", "msglen", "msgdata"]
    seen = tshark([udp(data) for data, _ in packets], f"udp.port=={PORT},moldudp64", [f"moldudp64.{n}" for n in names])
    expected = []
    for _, p in packets:
        numbers = ",".join(str(p.first + place) for place in range(len(p.messages)))
        lengths = ",".join(str(len(m)) for m in p.messages)
        count = str(p.count)
        expected.append([p.session.decode(), str(p.first), count, numbers, lengths, ",".join(m.hex() for m in p.messages)])
    return report("packets", expected, seen)


def orders_agree(packets: list[tuple[bytes, Packet]]) -> bool:
    names = ["packet_type", "order_token", "buy_sell_indicator", "shares", "stock", "price", "firm"]
    messages = [m for _, p in packets for m in p.messages]
    orders = [(m, d) for m in messages if isinstance(d := decode_message(m, 0), Order | Cancel)]
    frames, sequence = [], 1
    for message, _ in orders:
        frames.append(soup(sequence, message))
        sequence += 3 + len(message)
    seen = tshark(frames, f"tcp.port=={PORT},soupbintcp", [f"ouch.{n}" for n in names])
    return report("orders and cancels", [order_fields(d) for _, d in orders], seen)


def order_fields(message: Order | Cancel) -> list[str]:
    """The fields as tshark writes them: letters in quotation marks, the price as it stands."""
    token, units = message.token.decode(), str(message.units)
    if isinstance(message, Cancel):
        return ["'X'", token, "", units, "", "", ""]
    return ["'O'", token, f"'{message.side:c}'", units, message.stock.decode(), str(message.price), message.firm.decode()]


def report(what: str, expected: list[list[str]], seen: list[list[str]]) -> bool:
    if expected == seen:
        print(f"{what}: {len(seen)} agree")
        return True
    for want, got in zip(expected, seen):
        if want != got:
            print(f"{what}: expected {want}\n{' ' * len(what)}  got      {got}")
    print(f"{what}: DIFFERENT ({len(expected)} expected, {len(seen)} seen)")
    return False


def main() -> int:
    with open(sys.argv[1] if len(sys.argv) > 1 else "crates/packets/stdin", "rb") as file:
        packets = good_packets(file.read())
    return 0 if packets_agree(packets) & orders_agree(packets) else 1


if __name__ == "__main__":
    sys.exit(main())
