"""Random logs against a built log program: `python3 tests/run.py --program crates/opacity_log/out/opacity_log --count 2000 --seed 1`.

Each log's output is compared with what the lister expects, some of them in pieces. Before them come what no file can show: a live feed, whose lines
have to come with their symbols, the first bytes one by one, and reads and writes that fail; and the longest encoding with a transition listed twice,
at each of its 1,022 distances. The first mismatch is printed, with what is needed to repeat it, and the exit status is 1.

With `--kind weak` or `--kind strong` the program is one that looks for the first leak of a log (S-8). Its line has to come with the event that leaks, and
the program has to end then, though the feed goes on. With `--kind canonical` it is the one that writes canonical forms (S-9), and gets encodings by
themselves: whole, damaged, and longer than any can be. With `--kind witness` it is the one that prints runs that excuse the chamber (S-10), when its input
ends: each line's run is looked at by itself, since any one will do.
"""

import argparse
import os
import random
import select
import socket
import struct
import subprocess
import sys
import tempfile
import time

from canonical import canonical_output
from examples import AFTER_ANY, ENCODINGS, EXAMPLES, FIRST_LEAKS, FORMS, P_ENCODING, P_SYMBOLS, WITNESSES
from first_leaks import first_leak, leak_output
from generate import cut_to_size, many_transitions, random_encoding, random_log, random_trace, spelled, with_length, with_symbols, with_transitions
from logs import encoded, output
from mistakes import OF_ONE, search_case
from runs import Automaton, Listing
from witnesses import witness_output, wrong_output

# what each kind of program prints for a log, or the one that writes canonical forms for an encoding; those that look for a first leak have a notion
NOTIONS = {"log": None, "weak": 0, "strong": 1, "canonical": None, "witness": None}
PRINTED = {
    "log": output, "weak": lambda log: leak_output(log, 0), "strong": lambda log: leak_output(log, 1),
    "canonical": lambda data: canonical_output(data).decode("latin-1"), "witness": witness_output,
}
# in how many pieces inputs come, one after another; in no pieces: from a file
PIECES = 1, 1, 0, 0, 1, 1, 1, 1, 3, 3

# one byte more than any encoding has
TOO_LONG = b"\xff" * 2211
# the symbols of this one need several reads and writes
LONG = 600000
WANDERING = Automaton(3, 2, 2, 0, {1}, {1, 2}, [(0, 0, 2), (0, 1, 1), (1, 2, 0), (2, 1, 3), (3, 1, 3), (3, 2, 0)])
# the same with another secret: a state to which the symbol 3 alone leads, from each state
TO_SECRET = Automaton(4, 3, 2, 0, {4}, {1, 2, 3}, WANDERING.transitions + [(q, 3, 4) for q in range(5)] + [(4, 1, 4)])


def long_logs(rng, notion):
    """Logs that no buffer of the program holds. Where a first leak is looked for: one late, one that is the last byte, and none, each with refused bytes
    among the events."""
    trace = bytes(random_trace(rng, WANDERING, LONG))
    if notion is None:
        return [with_length(encoded(WANDERING), trace)]
    offered = b"\x00\xc8".join(trace[at : at + 997] for at in range(0, LONG, 997))
    return [with_length(encoded(TO_SECRET), end) for end in (offered[:-1000] + b"\x03" + b"\x01" * 1000, offered + b"\x03", offered)]


def edge_logs(notion):
    """Where a first leak is looked for: logs whose last byte but three, around the end of a read or of the program's room, is the leak."""
    front = with_length(encoded(AFTER_ANY), b"")
    sizes = () if notion is None else (65536, 65538, 131072)  # a read; the longest length and encoding; the room
    return [front + bytes(size + off - 1 - len(front)) + b"\x01" + bytes(3) for size in sizes for off in (-1, 0, 1, 2)]


def printed(program, log):
    """What the program prints for a log, a character for each byte, and its exit status."""
    done = subprocess.run([program], input=log, stdout=subprocess.PIPE, stderr=subprocess.PIPE, timeout=60, check=False)
    return done.stdout.decode("latin-1"), done.returncode


def printed_whole(program, log):
    """The same, where the program reads the log from a file, so that each read brings all that there is room for."""
    with tempfile.TemporaryFile() as file:
        file.write(log)
        file.seek(0)
        done = subprocess.run([program], stdin=file, stdout=subprocess.PIPE, stderr=subprocess.PIPE, timeout=60, check=False)
    return done.stdout.decode("latin-1"), done.returncode


def printed_slowly(program, log, pieces):
    """The same, where the program gets the log in so many pieces. (One that is refused is not read to its end.)"""
    size = len(log) // pieces + 1
    with subprocess.Popen([program], stdin=subprocess.PIPE, stdout=subprocess.PIPE, stderr=subprocess.PIPE, bufsize=0) as process:
        try:
            for i in range(pieces):
                process.stdin.write(log[i * size : (i + 1) * size])
                time.sleep(0.002)
        except BrokenPipeError:
            pass
        process.stdin.close()
        out = process.stdout.read()
        return out.decode("latin-1"), process.wait(timeout=60)


def line_of(process, seconds=5):
    """The next line that the program prints, or what came of it in so many seconds."""
    line = b""
    while not line.endswith(b"\n"):
        if not select.select([process.stdout], [], [], seconds)[0]:
            break
        byte = os.read(process.stdout.fileno(), 1)
        if not byte:
            break
        line += byte
    return line.decode("ascii", "replace")


def feed_encoding(process, encoding):
    """The first bytes of a log, one by one."""
    for byte in with_length(encoding, b""):
        process.stdin.write(bytes([byte]))
        time.sleep(0.0005)


def live_lines(process, automaton, offered, lines):
    """The bytes of a log one by one, with its lines. Says what is wrong, or nothing."""
    feed_encoding(process, encoded(automaton))
    if lines[0].startswith("refused"):
        return None if line_of(process) == lines[0] else "live feed: a refused log does not say so at once"
    if not offered and line_of(process, 0.05):
        return "live feed: a log is called idle before its end"
    for byte, line in zip(offered, lines):
        process.stdin.write(bytes([byte]))
        got = line_of(process)
        if got != line:
            return f"live feed, byte {byte}: expected {line!r}, printed {got!r}"
    process.stdin.close()
    for line in lines[len(offered) :]:
        if line_of(process) != line:
            return "live feed: the last lines are not as expected"
    return None


def live_feed(program):
    """A live feed of each example, byte by byte: a symbol's line comes before the next symbol, and of a log that is refused for its encoding or its
    opening the line comes before any symbol. Says what is wrong, or nothing."""
    for automaton, offered, expected in EXAMPLES:
        with subprocess.Popen([program], stdin=subprocess.PIPE, stdout=subprocess.PIPE, bufsize=0) as process:
            wrong = live_lines(process, automaton, offered, expected.splitlines(keepends=True))
            process.kill()
            if wrong:
                return wrong
    return None


def ended(process, line):
    """Whether the program prints a line and no more, and ends."""
    try:
        return line_of(process) == line and process.wait(timeout=5) == 0 and not process.stdout.read()
    except subprocess.TimeoutExpired:
        return False


def live_place(process, encoding, offered, place, needed):
    """The bytes of a log one by one, of which so many are needed for the place that is printed, or all of them and the end. Says what is wrong, or
    nothing."""
    feed_encoding(process, encoding)
    for at in range(len(offered) if needed is None else needed):
        if line_of(process, 0.01):
            return f"live feed: a line before byte {at} of {offered}"
        process.stdin.write(offered[at : at + 1])
    if needed is None:
        if line_of(process, 0.01):
            return f"live feed: a line before the end of {offered}"
        process.stdin.close()
    return None if ended(process, place) else f"live feed: {offered} does not end with {place!r} at once"


def live_search(program, notion):
    """A live feed of each example of a first leak, byte by byte: the line comes with the event that leaks, and the program ends, though the feed is
    still open; elsewhere with the end. Of a log that is refused the line comes behind the encoding. Says what is wrong, or nothing."""
    feeds = [(encoding, b"", f"refused {number}\n", 0) for encoding, number in ENCODINGS]
    for automaton, further, listed, *places in FIRST_LEAKS:
        if not further:
            offered, opening = bytes(listed), Listing(automaton)
            needed = next((end for end in range(len(offered) + 1) if first_leak(opening, notion, offered[:end])), None)
            feeds.append((encoded(automaton), offered, "-\n" if needed is None else f"{places[notion]}\n", needed))
    for feed in feeds:
        with subprocess.Popen([program], stdin=subprocess.PIPE, stdout=subprocess.PIPE, bufsize=0) as process:
            wrong = live_place(process, *feed)
            process.kill()
            if wrong:
                return wrong
    return None


def reset_feed(program, data):
    """What the program prints, says on standard error and ends with, where a feed breaks off behind some bytes."""
    with socket.create_server(("127.0.0.1", 0)) as server:
        feed = socket.create_connection(server.getsockname())
        end, _ = server.accept()
    with subprocess.Popen([program], stdin=end, stdout=subprocess.PIPE, stderr=subprocess.PIPE) as process:
        end.close()
        feed.sendall(data)
        time.sleep(0.2)  # what is not read when the feed is reset is lost
        feed.setsockopt(socket.SOL_SOCKET, socket.SO_LINGER, struct.pack("ii", 1, 0))
        feed.close()
        out, error = process.communicate(timeout=60)
        return out, error, process.returncode


def broken_feeds(notion):
    """Feeds that break off behind the encoding or an event, with what is printed and said. Behind the first leak no more is read."""
    front, failed = with_length(P_ENCODING, b""), b"read failed\n"
    if notion is None:
        return (front, b"", failed), (front + b"\x00", b"! 0 6\n", failed)
    return (front[:5], b"", failed), (front, b"", failed), (front + b"\x00\x01", b"", failed), (front + b"\x00\x01\x02", b"2\n", b"")


def failures(program, feeds, written):
    """A read that fails, the first one or one behind some bytes, and writes that do: each has its words, and there is no last line. Says what is wrong,
    or nothing."""
    folder = os.open("/", os.O_RDONLY)
    done = subprocess.run([program], stdin=folder, stdout=subprocess.PIPE, stderr=subprocess.PIPE, timeout=60, check=False)
    os.close(folder)
    if (done.stdout, done.stderr, done.returncode) != (b"", b"read failed\n", 0):
        return f"a folder as input: {done}"
    for data, expected, said in feeds:
        got = reset_feed(program, data)
        if got != (expected, said, 0):
            return f"a feed that breaks off behind {data[:600].hex(' ')}: {got}"
    for name, data in written:
        with open("/dev/full", "wb") as full:
            done = subprocess.run([program], input=data, stdout=full, stderr=subprocess.PIPE, timeout=60, check=False)
        if (done.stderr, done.returncode) != (b"write failed\n", 0):
            return f"{name} to a full device: {done}"
    return None


def log_failures(program, notion):
    """Those of a program that reads logs."""
    log = with_length(P_ENCODING, bytes((1, 2, 1, 1)))
    return failures(program, broken_feeds(notion), (("a log", log), ("its first event", log[:-3]), ("a refused log", log[:5])))


def encoding_failures(program):
    """Those of the one that writes canonical forms: behind 2,211 bytes no more is read, so that nothing fails there."""
    failed, line = (b"", b"read failed\n"), canonical_output(TOO_LONG)
    feeds = (b"", *failed), (P_ENCODING[:5], *failed), (P_ENCODING, *failed), (TOO_LONG[:-1], *failed), (TOO_LONG, line, b"")
    return failures(program, feeds, (("a form", P_ENCODING), ("a refused encoding", b""), ("one that is too long", TOO_LONG)))


def live_encoding(program):
    """An encoding by itself comes to its end with the feed's, and one that is too long with its 2,211th byte, though the feed is still open. Says what is
    wrong, or nothing."""
    with subprocess.Popen([program], stdin=subprocess.PIPE, stdout=subprocess.PIPE, bufsize=0) as process:
        for part in (P_ENCODING, TOO_LONG[len(P_ENCODING) : -1]):
            process.stdin.write(part)
            if line_of(process, 0.05):
                process.kill()
                return "live feed: an encoding is answered before its end"
        process.stdin.write(TOO_LONG[-1:])
        wrong = not ended(process, canonical_output(P_ENCODING + TOO_LONG[len(P_ENCODING) :]).decode("ascii"))
        process.kill()
    return "live feed: an encoding that is too long is not answered at once" if wrong else None


def distances(program, log=True):
    """The longest encoding, in a log or by itself, whose last transition is an earlier one, at every distance. Says what is wrong, or nothing."""
    automaton = Automaton(63, 31, 15, 0, set(), set(range(32)), many_transitions(random.Random("distances"), 1023), range(31, -1, -1))
    assert len(encoded(automaton)) == 2210
    for first in range(1022):
        again = with_transitions(automaton, automaton.transitions[:1022] + [automaton.transitions[first]])
        got = printed(program, with_length(encoded(again), b"\x01") if log else encoded(again))
        if got != ("refused 12\n", 0):
            return f"the transition {first} of 1,023 again as the last: {got}"
    return None


def answered(program, log, pieces):
    """What the program prints for a log that comes in so many pieces, and its exit status. In no pieces: from a file."""
    return (printed_whole, printed)[pieces](program, log) if pieces < 2 else printed_slowly(program, log, pieces)


def mismatch(program, log, expected, pieces):
    """Says in which way the program's output differs from what is expected, or nothing."""
    got, status = answered(program, log, pieces)
    if (got, status) == (expected, 0):
        return None
    said = f"input ({len(log)} bytes, in {pieces} pieces): {log[:600].hex(' ')}"
    return f"{said}\nexpected:\n{readable(expected)}\nprinted (status {status}):\n{readable(got)}"


def readable(text):
    """The lines that a program printed, or the bytes of an encoding."""
    return text[:3000] if text.replace("\n", "").isprintable() else text[:1000].encode("latin-1").hex(" ")


def searched_log(rng, printed):
    """A log by whose first leak a mistaken program is told, under one notion or either, and what the program prints for it."""
    opening, offered = search_case(rng, rng.choice(OF_ONE), several=False)
    return cut_to_size(with_length(encoded(opening.automaton), offered), printed)


def cases(kind, seed, count):
    """The long logs and the random ones: a number, the log, what is printed for it, and in how many pieces it comes. Where a first leak is looked for,
    every other random one is such that it tells a mistaken program."""
    notion, expected = NOTIONS[kind], PRINTED[kind]
    long = [(log, 1) for log in long_logs(random.Random(f"{seed} -1"), notion)] + [(log, 0) for log in edge_logs(notion)]
    for i, (log, pieces) in enumerate(long):
        yield -1 - i, log, expected(log), pieces
    for i in range(count):
        rng = random.Random(f"{seed} {i}")
        yield i, *(random_log(rng, expected) if notion is None or i % 2 else searched_log(rng, expected)), PIECES[i % 10]


def edge_encodings(rng):
    """Encodings that were thought out: no byte at all, examples, one that is cut at every byte, the longest, with symbols that are needed and others;
    and what is longer than any, around the ends of reads, whose front is whole, cut, out of range, or lists a transition twice."""
    automaton = Automaton(63, 31, 9, 40, set(range(0, 64, 3)), set(range(1, 32, 2)), many_transitions(rng, 1023), [5] * 32)
    longest, plain = (encoded(spelled(rng, with_symbols(automaton, symbols))) for symbols in ([5] * 32, range(32)))
    whole = [b"", *(data for pair in FORMS for data in pair), longest, plain, encoded(with_symbols(automaton, None))]
    repeated = encoded(with_transitions(automaton, automaton.transitions[:1022] + automaton.transitions[7:8]))
    stray = encoded(Automaton(40, 31, 9, 40, (), (), [(number % 41, number // 41 % 32, 7) for number in range(1022)] + [(40, 31, 41)], [5] * 32))
    ones, symbols = b"\xff" * 2210, encoded(P_SYMBOLS)
    fronts = [b"", symbols, symbols[:9], *(data for data, _ in ENCODINGS), plain, longest[:-1], repeated, stray, P_ENCODING, longest, ones]
    long = [(front, size) for front in fronts for size in (2209, 2210, 2211, 2212, 4095, 4096, 4097, 8192, 8193)]
    long += [(front, size) for front in fronts[-3:] for size in (65535, 65536, 65537, 131073, 300000)]
    cut = [symbols[:size] for size in range(len(symbols))]
    return whole + cut + fronts + [front.ljust(size, b"\0") for front, size in long if len(front) < size]


def encoding_cases(seed, count):
    """The encodings that were thought out, and random ones: a number, the encoding, what is printed for it, and in how many pieces it comes."""
    expected = PRINTED["canonical"]
    for i, data in enumerate(edge_encodings(random.Random(f"{seed} -1"))):
        yield -1 - i, data, expected(data), i % 2
    for i in range(count):
        data = random_encoding(random.Random(f"{seed} {i}"))
        yield i, data, expected(data), PIECES[i % 10]


def run_encodings(program, seed, count):
    """Runs the encodings of a seed: the exit status."""
    found = live_encoding(program) or encoding_failures(program) or distances(program, log=False)
    if found:
        print(found)
        return 1
    refused = same = 0
    for i, data, expected, pieces in encoding_cases(seed, count):
        found = mismatch(program, data, expected, pieces)
        if found:
            print(f"seed {seed}, encoding {i}: mismatch\n{found}")
            return 1
        refused += expected.startswith("refused")
        same += expected.encode("latin-1") == data
    forms = f"{refused} of them refused and {same} that were canonical before"
    print(f"seed {seed}: {count} random encodings and others, {forms}, 0 mismatches; a live feed, failures and repeats as expected")
    return 0


# runs that excuse the chamber


def live_witnesses(program):
    """A live feed of each example, byte by byte: all lines come when it ends, and none before. Of a log that is refused the line comes behind the encoding,
    though the feed is still open. Says what is wrong, or nothing."""
    feeds = [(encoding, b"", f"refused {number}\n") for encoding, number in ENCODINGS]
    feeds += [(encoded(automaton), b"\xc8" + bytes(trace), None) for automaton, further, trace, *_ in WITNESSES if not further]
    for encoding, offered, refused in feeds:
        with subprocess.Popen([program], stdin=subprocess.PIPE, stdout=subprocess.PIPE, bufsize=0) as process:
            wrong = live_runs(process, encoding, offered, refused)
            process.kill()
            if wrong:
                return wrong
    return None


def live_runs(process, encoding, offered, refused):
    """One of them."""
    feed_encoding(process, encoding)
    if refused:
        return None if ended(process, refused) else "live feed: a refused log does not say so at once"
    for at in range(len(offered)):
        process.stdin.write(offered[at : at + 1])
    if line_of(process, 0.05):
        return f"live feed: a line before the end of {offered}"
    process.stdin.close()
    wrong = wrong_output(with_length(encoding, offered), process.stdout.read().decode("latin-1"))
    return wrong and f"live feed of {offered}: {wrong}"


def witness_failures(program):
    """Where a read fails nothing is printed, behind the encoding or behind events."""
    front, failed = with_length(P_ENCODING, b""), (b"", b"read failed\n")
    log = with_length(P_ENCODING, bytes((1, 2, 1, 1)))
    feeds = (front[:5], *failed), (front, *failed), (front + b"\x00", *failed), (log, *failed)
    return failures(program, feeds, (("a log", log), ("an idle log", front), ("a refused log", log[:5])))


def deep_logs():
    """Logs whose runs are the longest: 63 unobservable steps before each symbol; the first position that is not secret 63 steps away, and the first symbol
    63 steps behind it; and a K of 0, no events, more of them than K."""
    chain = [(q, 1, q + 1) for q in range(63)]
    for secret, further in ((set(), [(63, 2, 0)]), (set(range(63)), [(63, 2, 0)]), (set(range(63)), [(63, 1, 0), (62, 2, 63)])):
        for k, count in ((15, 15), (15, 16), (15, 3), (15, 0), (0, 4), (7, 300)):
            yield with_length(encoded(Automaton(63, 2, k, 0, secret, {2}, chain + further)), bytes([2] * count))


def witness_cases(seed, count):
    """The logs that were thought out, a long one, and random ones: a number, the log, and in how many pieces it comes."""
    examples = [with_length(encoded(automaton), bytes(trace)) for automaton, further, trace, *_ in WITNESSES if not further]
    for i, log in enumerate([*examples, *deep_logs(), *long_logs(random.Random(f"{seed} -1"), None)]):
        yield -1 - i, log, i % 2
    for i in range(count):
        yield i, random_log(random.Random(f"{seed} {i}"), PRINTED["witness"])[0], PIECES[i % 10]


def run_witnesses(program, seed, count):
    """Runs the logs of a seed against the program that prints runs: the exit status."""
    found = live_witnesses(program) or witness_failures(program) or distances(program)
    if found:
        print(found)
        return 1
    runs = none = refused = 0
    for i, log, pieces in witness_cases(seed, count):
        got, status = answered(program, log, pieces)
        found = wrong_output(log, got) or status and f"status {status}"
        if found:
            print(f"seed {seed}, log {i}: mismatch\ninput ({len(log)} bytes, in {pieces} pieces): {log[:600].hex(' ')}")
            print(f"{found}\nprinted:\n{readable(got)}")
            return 1
        none += got.count("no alibi")
        refused += got.startswith("refused")
        runs += sum(line.startswith(("weak", "strong")) and not line.endswith("alibi") for line in got.splitlines())
    counted = f"{runs} runs that pass, {none} lines without one, {refused} logs refused"
    print(f"seed {seed}: {count} random logs and long ones, {counted}, 0 mismatches; a live feed, failures and repeats as expected")
    return 0


def main():
    """Runs the logs, or the encodings."""
    words = argparse.ArgumentParser(description=__doc__, formatter_class=argparse.RawDescriptionHelpFormatter)
    words.add_argument("--program", default="crates/opacity_log/out/opacity_log")
    words.add_argument("--kind", choices=sorted(NOTIONS), default="log")
    words.add_argument("--count", type=int, default=2000)
    words.add_argument("--seed", type=int, default=1)
    chosen = words.parse_args()
    if chosen.kind == "canonical":
        return run_encodings(chosen.program, chosen.seed, chosen.count)
    if chosen.kind == "witness":
        return run_witnesses(chosen.program, chosen.seed, chosen.count)
    notion = NOTIONS[chosen.kind]
    found = live_feed(chosen.program) if notion is None else live_search(chosen.program, notion)
    found = found or log_failures(chosen.program, notion) or distances(chosen.program)
    if found:
        print(found)
        return 1
    lines = idle = places = 0
    for i, log, expected, pieces in cases(chosen.kind, chosen.seed, chosen.count):
        found = mismatch(chosen.program, log, expected, pieces)
        if found:
            print(f"seed {chosen.seed}, log {i}: mismatch\n{found}")
            return 1
        lines += expected.count("\n")
        idle += expected.startswith("0 ")
        places += notion is not None and expected[0].isdigit()
    logs = f"{chosen.count} random logs, of which {idle} are idle, and a long one" if notion is None else f"{chosen.count} random logs and long ones"
    counted = f"{lines} lines" if notion is None else f"{places} with a leak"
    print(f"seed {chosen.seed}: {logs}, {counted}, 0 mismatches; a live feed, failures and repeats as expected")
    return 0


if __name__ == "__main__":
    sys.exit(main())
