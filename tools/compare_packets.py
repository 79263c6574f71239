#!/usr/bin/env python3
"""Compares the program `packets` with the independent listing, byte for byte, on many streams.

    tools/compare_packets.py PROGRAM [--seeds N] [--first S]
"""

from __future__ import annotations

import argparse
import fcntl
import os
import re
import select
import signal
import struct
import subprocess
import sys
import tempfile
import termios
import time
from collections import Counter
from collections.abc import Iterator
from dataclasses import dataclass, field
from itertools import zip_longest

from edges import sized_packet
from streams import EDGES, stream
from wire import listing, printed

TIME_LIMIT = 10.0  # seconds for one stream
CLOSED_LIMIT = 5.0  # seconds for a program whose output is closed
MOST_SHOWN = 5  # differences after which the comparison stops
CAUSES = [f"cause {cause}" for cause in (1, 2, 3, 4, 8, 9)]
KINDS = ["T", "H", "O", "X"]
FORMS = ["buy", "sell", "limit", "no limit", "halted", "trading", "heartbeat", "end of session"]

# Edges and seeds that are also fed a few bytes at a time, with the size of the pieces.
DRIBBLES: list[tuple[str | int, int]] = [
    ("good", 1), ("good, then 19 bytes", 2), ("several fields", 7), ("726 empty blocks, packet after", 3),
    ("good, then length at 1472 cut to 00", 3), ("good, then length at 1472, 0 bytes of 0", 5),
    ("every kind, 19 bytes", 4), ("largest packets, then one too long", 997), (0, 1), (1, 3), (3, 2), (4, 5),
]


@dataclass(frozen=True)
class Run:
    """How a program ended; a status of None means that it was stopped at the time limit."""

    status: int | None
    output: bytes
    errors: bytes


@dataclass
class Comparison:
    program: str
    streams: int = 0
    dribbled: int = 0
    problems: int = 0
    met: Counter[str] = field(default_factory=Counter)


# Running the program.


def run(program: str, data: bytes) -> Run:
    try:
        done = subprocess.run([program], input=data, capture_output=True, timeout=TIME_LIMIT)
    except subprocess.TimeoutExpired as late:
        return Run(None, late.stdout or b"", late.stderr or b"")
    return Run(done.returncode, done.stdout, done.stderr)


def unread_bytes(pipe: int) -> int:
    """How many bytes wait in a pipe."""
    return struct.unpack("i", fcntl.ioctl(pipe, termios.FIONREAD, bytes(4)))[0]


def feed(process: subprocess.Popen[bytes], data: bytes, piece: int) -> None:
    """Writes pieces to the program, each once the one before has been taken, so that every read is short."""
    assert process.stdin is not None
    pipe = process.stdin.fileno()
    deadline = time.monotonic() + TIME_LIMIT
    for at in range(0, len(data), piece):
        try:
            os.write(pipe, data[at : at + piece])
        except BrokenPipeError:  # the program ended at a fault
            return
        while unread_bytes(pipe) and process.poll() is None:
            if time.monotonic() > deadline:
                return
            time.sleep(0.00002)


def dribble(program: str, data: bytes, piece: int) -> Run:
    with tempfile.TemporaryFile() as output, tempfile.TemporaryFile() as errors:
        with subprocess.Popen([program], stdin=subprocess.PIPE, stdout=output, stderr=errors, bufsize=0) as process:
            assert process.stdin is not None
            feed(process, data, piece)
            process.stdin.close()
            status = ended(process, TIME_LIMIT)
        output.seek(0)
        errors.seek(0)
        return Run(status, output.read(), errors.read())


def ended(process: subprocess.Popen[bytes], limit: float) -> int | None:
    """The exit status, or None if the process had to be stopped at the time limit."""
    try:
        return process.wait(limit)
    except subprocess.TimeoutExpired:
        process.kill()
        process.wait()
        return None


# Comparing.


def forms(line: str) -> list[str]:
    """What a line shows: a packet, a kind, a cause, a side and so on. Quoted text holds no bare quotation mark."""
    words = line.split(" ")
    if words[0] == "PACKET":
        return ["packet"] + re.findall(r" \((heartbeat|end of session)\)$", line)
    if words[0] == "FAULT":
        return [f"cause {words[1]}"]
    if words[1] == "REFUSED":
        return ["refused", f"cause {words[2]}"]
    met = [words[1]]
    if words[1] == "O":
        met += [words[2], "no limit" if '" no limit firm "' in line else "limit"]
    if words[1] == "H":
        met.append(words[-1])
    return met


def shown(line: bytes | None) -> str:
    if line is None:
        return "(no line)"
    text = "".join(chr(byte) if 0x20 <= byte < 0x7F else f"<{byte:02x}>" for byte in line.removesuffix(b"\n"))
    return text if line.endswith(b"\n") else f"{text} (no newline)"


def first_difference(expected: bytes, got: bytes) -> str:
    wanted, given = (re.findall(rb"[^\n]*\n|[^\n]+", text) for text in (expected, got))
    place, (want, give) = next(
        (place, pair) for place, pair in enumerate(zip_longest(wanted, given), 1) if pair[0] != pair[1]
    )
    return f"  line {place}\n    expected {shown(want)}\n    got      {shown(give)}"


def complaint(expected: bytes, got: Run) -> str | None:
    """What is wrong with a run, or None."""
    if got.status is None:
        return f"  did not end within {TIME_LIMIT:.0f} seconds"
    if got.output != expected:
        return f"{first_difference(expected, got.output)}\n  exit status {got.status}, standard error {got.errors!r}"
    if got.status != 0:
        return f"  exit status {got.status}, expected 0; standard error {got.errors!r}"
    return f"  standard error not empty: {got.errors!r}" if got.errors else None


def report(state: Comparison, name: str, data: bytes, words: str) -> None:
    state.problems += 1
    plain = re.sub(r"[^A-Za-z0-9]+", "-", name)
    with tempfile.NamedTemporaryFile(prefix=f"packets-{plain}-", suffix=".bin", delete=False) as file:
        file.write(data)
    print(f"different: {name}\n{words}\n  stream written to {file.name}")


def compare(state: Comparison, name: str, data: bytes) -> None:
    lines = listing(data)
    words = complaint(printed(lines), run(state.program, data))
    if words is not None:
        report(state, name, data, words)
        return
    state.streams += 1
    for line in lines:
        state.met.update(forms(line))


def compare_dribbled(state: Comparison, name: str, data: bytes, piece: int) -> None:
    words = complaint(printed(listing(data)), dribble(state.program, data, piece))
    if words is None:
        state.dribbled += 1
    else:
        report(state, f"{name}, {piece} bytes at a time", data, words)


def cases(seeds: range) -> Iterator[tuple[str, bytes]]:
    yield from ((f"edge {name}", data) for name, data in EDGES.items())
    yield from ((f"seed {seed}", stream(seed)) for seed in seeds)


def compare_all(state: Comparison, seeds: range) -> None:
    """Compares every stream, then the dribbled ones; stops once enough differences have been shown."""
    for name, data in cases(seeds):
        compare(state, name, data)
        if state.problems >= MOST_SHOWN:
            return
    for key, piece in DRIBBLES:
        data, name = (EDGES[key], f"edge {key}") if isinstance(key, str) else (stream(key), f"seed {key}")
        compare_dribbled(state, name, data, piece)
        if state.problems >= MOST_SHOWN:
            return


# Error paths.


def ending(status: int | None) -> str:
    if status is None:
        return "did not end"
    return f"ended by {signal.Signals(-status).name}" if status < 0 else f"ended with status {status}"


def check_closed_output(state: Comparison) -> None:
    """A program whose output is closed early, while a long stream is fed, must end with status 1."""
    with tempfile.TemporaryFile() as source, tempfile.TemporaryFile() as errors:
        source.write(b"".join(sized_packet(1_472, first) for first in range(1_500)))
        source.seek(0)
        with subprocess.Popen([state.program], stdin=source, stdout=subprocess.PIPE, stderr=errors) as process:
            assert process.stdout is not None
            if select.select([process.stdout], [], [], CLOSED_LIMIT)[0]:
                os.read(process.stdout.fileno(), 100)
            process.stdout.close()
            status = ended(process, CLOSED_LIMIT)
    good = status == 1
    print(f"closed output: {ending(status)}{'' if good else ', expected status 1'}")
    state.problems += not good


def check_unreadable_input(state: Comparison) -> None:
    """A directory as standard input cannot be read: status 1 and a line on standard error."""
    directory = os.open(tempfile.gettempdir(), os.O_RDONLY)
    try:
        pipe = subprocess.PIPE
        with subprocess.Popen([state.program], stdin=directory, stdout=pipe, stderr=pipe) as process:
            try:
                _, errors = process.communicate(timeout=CLOSED_LIMIT)
                status: int | None = process.returncode
            except subprocess.TimeoutExpired:
                status, errors = ended(process, 0), b""
    finally:
        os.close(directory)
    good = status == 1 and errors.endswith(b"\n")
    expected = "" if good else ", expected status 1 and a line on standard error"
    print(f"unreadable input: {ending(status)}, standard error {errors!r}{expected}")
    state.problems += not good


def peak_memory(program: str, packets: int) -> int:
    """The most memory, in KiB, that the program held once it has taken so many packets of the largest size."""
    pipe, null = subprocess.PIPE, subprocess.DEVNULL
    with subprocess.Popen([program], stdin=pipe, stdout=null, stderr=null) as process:
        assert process.stdin is not None
        for first in range(packets):
            process.stdin.write(sized_packet(1_472, first))
        process.stdin.flush()
        while unread_bytes(process.stdin.fileno()) and process.poll() is None:
            time.sleep(0.001)
        with open(f"/proc/{process.pid}/status") as status:
            held = next(line for line in status if line.startswith("VmHWM:"))
    return int(held.split()[1])


def check_flat_memory(state: Comparison) -> None:
    """Memory must not grow with the stream: 20 times the packets, the same peak, give or take 512 KiB."""
    few, many = peak_memory(state.program, 1_000), peak_memory(state.program, 20_000)
    good = many - few <= 512
    print(f"peak memory: {few} KiB over 1.4 MB, {many} KiB over 28 MB{'' if good else ', expected no growth'}")
    state.problems += not good


def check_live(state: Comparison) -> None:
    """A packet is listed once it is there, though the input stays open and nothing follows."""
    data = EDGES["good"]
    expected = printed(listing(data))
    got = b""
    with subprocess.Popen([state.program], stdin=subprocess.PIPE, stdout=subprocess.PIPE) as process:
        assert process.stdin is not None and process.stdout is not None
        process.stdin.write(data)
        process.stdin.flush()
        while len(got) < len(expected) and select.select([process.stdout], [], [], CLOSED_LIMIT)[0]:
            piece = os.read(process.stdout.fileno(), 65_536)
            if not piece:
                break
            got += piece
    good = got == expected
    print(f"open input: {'listed at once' if good else 'not listed while more could follow'}")
    state.problems += not good


# The report.


def counts(met: Counter[str], names: list[str]) -> str:
    return ", ".join(f"{name} {met[name]}" for name in names)


def show(state: Comparison, seeds: int) -> None:
    """Prints what was met. A comparison that never met some form is a problem too."""
    met, edges = state.met, len(EDGES)
    print(f"streams {state.streams} of {edges + seeds} ({edges} edges, {seeds} seeds), dribbled {state.dribbled}")
    print(f"packets {met['packet']}, messages {counts(met, [*KINDS, 'refused'])}")
    print(counts(met, FORMS))
    print(f"met {counts(met, CAUSES)}")
    missing = [name for name in CAUSES + KINDS + FORMS if not met[name]]
    if missing and not state.problems:
        state.problems += 1
        print(f"not met at all in what was compared: {', '.join(missing)}")


def main() -> int:
    parser = argparse.ArgumentParser(description="Compare the program `packets` with the independent listing.")
    parser.add_argument("program")
    parser.add_argument("--seeds", type=int, default=300, help="how many seeds (default 300)")
    parser.add_argument("--first", type=int, default=0, help="the first seed (default 0)")
    given = parser.parse_args()
    state = Comparison(os.path.abspath(given.program))
    try:
        compare_all(state, range(given.first, given.first + given.seeds))
        check_closed_output(state)
        check_unreadable_input(state)
        check_flat_memory(state)
        check_live(state)
    except OSError as error:
        print(f"cannot compare: {error}")
        state.problems += 1
    show(state, given.seeds)
    print("packets: DIFFERENT" if state.problems else f"packets: {state.streams} streams agree")
    return 1 if state.problems else 0


if __name__ == "__main__":
    sys.exit(main())
