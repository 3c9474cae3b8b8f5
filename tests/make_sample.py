"""Writes the stored logs and what they print, as the lister expects it: `python3 tests/make_sample.py`.

crates/log_sample/stdin has the logs one after another, each with its length in two bytes, high first, before it; crates/log_sample/stdout
has what each prints. crates/leak_sample has logs in which a first leak is looked for (S-8), each with a notion, 0 weak or 1 strong, in one more byte in
front; crates/first_leak and crates/first_strong_leak have one such log each. crates/canonical_encoding has an encoding, and its canonical form (S-9).
crates/witness_log has a log, and the runs that excuse the chamber (S-10): one for each question that has any, so that the program has no choice.
With `--check` nothing is written, and the exit status is 1 where the files differ from what would be written.
"""

import pathlib
import random
import sys

from canonical import canonical_output
from examples import (
    AFTER_ANY, CLOSING, ENCODINGS, EXAMPLES, FIRST_LEAKS, ONE_EACH, ONE_SYMBOL, P, P_ENCODING, P_SYMBOLS, T, WEAK_LATER, WIDENING,
)
from first_leaks import leak_output
from generate import many_transitions, random_log, with_length, with_repeat, with_symbols, with_transitions
from logs import encoded, output
from mistakes import OF_ONE, search_case
from runs import Automaton
from stored import store
from witnesses import exists, only, witness_output

RANDOM, SEARCHED, ANY = 220, 220, 80
SEED = 6
CRATES = pathlib.Path(__file__).resolve().parent.parent / "crates"
# the programs that look for a first leak, each with its notion, and the log that is stored for both: there are refused bytes among its events, and the first
# strong leak comes before the first weak one
SEARCHES = {name: (notion, WEAK_LATER, (2, 2, 0, 1, 1, 200, 3)) for notion, name in enumerate(("first_leak", "first_strong_leak"))}
# a log for runs that excuse the chamber, with refused bytes among its events
EXCUSED = with_length(encoded(ONE_EACH), bytes((0, 9, 2, 200, 9, 31, 2, 2, 9, 9, 3)))
# P with one transition more, in no order, and with symbols: that of event 0, which is not observable, says nothing, and that of event 2 is needed
UNSORTED = with_symbols(with_transitions(P, [(3, 1, 3), (0, 1, 3), (1, 2, 0), (0, 1, 1), (2, 1, 3), (0, 0, 2)]), [31, 1, 0])


def longest_release():
    """With K 15 the first symbol waits for 16 more, and 17 go at once, each with two digits: the longest line. The event is 31, and then 0; then 61
    states can be reached unobserved, so that the estimate size has two digits too."""
    for event, listed in ((31, None), (0, [31])):
        automaton = Automaton(2, event, 15, 0, {1}, {event}, [(0, event, 1), (1, event, 2), (2, event, 2)], listed)
        yield with_length(encoded(automaton), bytes([31] * 18))
    unobserved = [(2, 0, q) for q in range(3, 64)]
    automaton = Automaton(63, 31, 15, 0, {1}, {31}, [(0, 31, 1), (1, 31, 2), (2, 31, 2)] + unobserved)
    yield with_length(encoded(automaton), bytes([31] * 18))


def sizes():
    """Estimates of every size: from 64 states to one, and from one to 64; then idle."""
    for automaton, count in ((CLOSING, 64), (WIDENING, 65)):
        yield with_length(encoded(automaton), bytes([1] * count))
        yield with_length(encoded(automaton), b"")


def largest():
    """The longest encoding there is, with symbols and 1,023 different transitions: as it is, a byte shorter, a byte longer; then without symbols."""
    rng = random.Random("largest")
    listed = [rng.randrange(32) for _ in range(32)]
    automaton = Automaton(63, 31, 1, 5, set(range(0, 60)), set(range(3, 32)), many_transitions(rng, 1023), listed)
    longest, offered = encoded(automaton), bytes(range(32)) + bytes((32, 255))
    assert len(longest) == 2210
    yield with_length(longest, offered)
    yield with_length(longest[:-1], offered)
    yield with_length(longest + b"\x00", offered)
    yield with_length(encoded(with_symbols(automaton, None)), offered)


def symbols():
    """Encodings with symbols that are cut at every byte and that have padding bits; offered bytes that are no symbols, or are so only in their low
    bits; the symbols of all 32 events turned around, with and without events that have no transitions; and one symbol or two for all, where all of
    them but one lead to a secret state."""
    for automaton in (P_SYMBOLS, Automaton(4, 6, 2, 0, {1}, {0, 3, 6}, [(0, 3, 1), (0, 6, 2)], [31, 21, 10, 31, 0, 1, 31])):
        encoding = encoded(automaton)
        for size in range(len(encoding)):
            yield with_length(encoding[:size], b"\x02")
        yield with_length(encoded(automaton, padding=1), b"\x02")
        yield with_length(encoded(automaton, listed=0), b"\x02")
        yield with_length(encoding + b"\x00", b"\x02")
    yield with_length(encoded(ONE_SYMBOL), bytes((7, 39, 71, 135, 231, 255, 2, 34, 66, 130, 7, 31, 32, 2)))
    ring = [(event, event, (event + 1) % 32) for event in range(32)]
    around = Automaton(31, 31, 15, 0, {7, 20}, set(range(32)), ring, range(31, -1, -1))
    yield with_length(encoded(around), bytes(range(31, -1, -1)) + bytes((0, 31, 32, 255)))
    yield with_length(encoded(with_transitions(around, ring[::2])), bytes((31, 30, 1, 0)))
    half = Automaton(31, 31, 15, 0, {8, 20}, set(range(0, 32, 2)), ring, [(event * 7 + 3) % 32 for event in range(32)])
    yield with_length(encoded(half), bytes((event * 7 + 3) % 32 for event in range(32)) + bytes((3, 0, 32)))
    anywhere = [(0, event, event + 1) for event in range(32)] + [(event + 1, 31 - event, 33 + event % 2) for event in range(0, 32, 3)]
    for k, other in ((0, 0), (1, 15), (15, 16), (15, 31)):
        one = Automaton(34, 31, k, 0, set(range(1, 33)) - {other + 1}, set(range(32)), anywhere, [5] * 32)
        yield with_length(encoded(one), bytes((5, 0, 31, 5, 5)))
        two = with_symbols(one, [5] * 16 + [21] * 16)
        yield with_length(encoded(two), bytes((21, 5, 5)))
        yield with_length(encoded(two), bytes((5, 16, 21, 21)))


def repeats():
    """A transition that is listed twice, at every distance of 24 transitions, every other time with symbols: as it is, cut behind the second, cut
    inside it, with a padding bit and a further byte; then with a transition out of range, before the second or behind it."""
    rng = random.Random("repeats")
    automaton = Automaton(63, 31, 2, 0, {1}, set(range(1, 32)), many_transitions(rng, 24))
    for distance in range(1, 25):
        first = rng.randrange(25 - distance)
        again = with_repeat(with_symbols(automaton, range(32) if distance % 2 else None), first, distance)
        yield with_length(encoded(again), b"\x01")
        second = first + distance
        behind = 32 + 64 + 32 + 160 * (distance % 2) + 17 * (second + 1)  # the bit behind the second
        yield with_length(encoded(again)[: -(-behind // 8)], b"\x01")
        yield with_length(encoded(again)[: behind // 8], b"\x01")
        yield with_length(encoded(again, padding=1) + b"\x00", b"\x01")
    lower = Automaton(40, 20, 2, 0, {1}, set(range(1, 21)), [(s % 41, e % 21, t % 41) for s, e, t in many_transitions(rng, 12)])
    assert len(set(lower.transitions)) == 12
    for place in range(13):
        for wrong in ((41, 0, 0), (0, 21, 0), (0, 0, 41)):
            transitions = with_repeat(lower, 2, 5).transitions
            transitions.insert(place, wrong)
            yield with_length(encoded(with_transitions(lower, transitions)), b"\x01")


def far_repeats():
    """The longest encoding, whose last transition is an earlier one, at near and far distances."""
    automaton = Automaton(63, 31, 1, 5, set(), set(range(32)), many_transitions(random.Random("far"), 1023), [1] * 32)
    powers = [2**i for i in range(10)]
    for distance in sorted({1022, *powers, *(1022 - power for power in powers)}):
        transitions = automaton.transitions[:1022] + [automaton.transitions[1022 - distance]]
        yield with_length(encoded(with_transitions(automaton, transitions)), b"\x01")


def near_repeats():
    """Transitions that differ from one in a single bit, before it and behind it: all are taken."""
    number = 0b010110_01101_100101
    others = [number ^ 1 << bit for bit in range(17)]
    for numbers in (others + [number], [number] + others):
        transitions = [(n // 2048, n // 64 % 32, n % 64) for n in numbers]
        yield with_length(encoded(Automaton(63, 31, 1, 22, {37}, {13, 12, 15}, transitions)), bytes((13, 12, 15)))


def idle():
    """Logs without event bytes, with encodings from 7 to 26 bytes and with the longest, so that the last read brings one byte, two or three.
    The initial state is secret and can be left unobserved for a state that is not (strong leak 0), for one that is (refused), or not at all
    (refused); or it is not secret, and an unobservable transition leads to a secret state (none). With K 0, 1 and 15."""
    for others in range(9):
        ring = [(q + 1, 1, q + 2) for q in range(others)]
        for k in (0, 1, 15):
            for secret, leaving in (({0}, [(0, 0, 1)]), ({0, 1}, [(0, 0, 1)]), ({0}, [(0, 1, 1)]), ({1}, [(0, 0, 1)])):
                automaton = Automaton(others + 1, 1, k, 0, secret, {1}, leaving + ring)
                yield with_length(encoded(automaton), b"")
                yield with_length(encoded(with_symbols(automaton, [0, others])), b"")
    observable = [transition for transition in many_transitions(random.Random("idle"), 1100) if transition[1] != 0]
    longest = encoded(Automaton(63, 31, 15, 5, {5}, set(range(1, 32)), observable[:1022] + [(5, 0, 6)], range(32)))
    assert len(longest) == 2210
    yield with_length(longest, b"")


def examples():
    """01's examples, encodings that are refused, and P's log cut at every byte."""
    for automaton, offered, _ in EXAMPLES:
        yield with_length(encoded(automaton), bytes(offered))
    for encoding, _ in ENCODINGS:
        yield with_length(encoding, b"\x01")
    whole = with_length(P_ENCODING, bytes((1, 2, 1, 1)))
    for end in range(len(whole)):
        yield whole[:end]


def logs():
    """The logs of the sample."""
    yield from examples()
    yield from longest_release()
    yield from sizes()
    yield from largest()
    yield from symbols()
    yield from repeats()
    yield from far_repeats()
    yield from near_repeats()
    yield from idle()
    for i in range(RANDOM):
        yield random_log(random.Random(f"{SEED} {i}"))[0]


def leaks():
    """Logs with a leak at each place of the first ones, behind encodings of different lengths, with fewer bytes behind it and more; with refused bytes
    before it; far from the start; and nowhere."""
    for automaton, further, offered, *_ in FIRST_LEAKS:
        if not further:
            yield with_length(encoded(automaton), bytes(offered))
    encodings = [encoded(Automaton(top, 1, 0, 0, {1}, {0, 1}, AFTER_ANY.transitions)) for top in (1, 9, 17)]
    for encoding in encodings:
        for place in range(1, 8):
            for behind in range(4):
                yield with_length(encoding, bytes(place - 1) + b"\x01" + bytes(behind))
        for count in range(6):
            yield with_length(encoding, bytes([200] * count + [0] + [2] * count + [1, 0]))
            yield with_length(encoding, bytes(count))
    for place in (255, 256, 257, 2000):
        yield with_length(encodings[0], bytes(place - 1) + b"\x01" + bytes(place % 7))
    yield with_length(encodings[0], bytes(300) + b"\x02" * 300 + bytes(299) + b"\x01")
    yield with_length(encodings[0], bytes(1000))


def searched():
    """The logs of the other sample, each with a notion; most with either. Of the random ones all but one of eleven tell a mistaken program, every other
    time by an event that is not the first."""
    for part in (examples, leaks, longest_release, sizes, symbols, near_repeats):
        for log in part():
            yield from ((0, log), (1, log))
    for part in (largest, repeats, idle):
        for i, log in enumerate(part()):
            yield i % 2, log
    kinds = (*OF_ONE, None)
    for i in range(SEARCHED):
        rng = random.Random(f"searches {SEED} {i}")
        opening, offered = search_case(rng, kinds[i % len(kinds)], 2 * (i // len(kinds) % 2), several=False)
        log = with_length(encoded(opening.automaton), offered)
        yield from ((0, log), (1, log))
    for i in range(ANY):
        notion = i % 2
        yield notion, random_log(random.Random(f"any {SEED} {i}"), lambda log: leak_output(log, notion))[0]


def behind_size(log, more=0):
    """A log behind its length, which may say more than there is: then the input ends before."""
    size = len(log) + more
    return bytes((size // 256, size % 256)) + log


def sample():
    """The files: each log behind its length, and what all of them print. The last is idle, and the input ends there."""
    listed = list(logs())
    last = with_length(encoded(T), b"")
    return {
        "stdin": b"".join(behind_size(log) for log in listed) + behind_size(last, 100),
        "stdout": "".join(output(log) for log in [*listed, last]).encode("ascii"),
    }


def leak_sample():
    """The same of first leaks, each log behind its notion and its length."""
    listed = list(searched())
    last = with_length(encoded(T), b"")
    return {
        "stdin": b"".join(bytes([notion]) + behind_size(log) for notion, log in listed) + b"\x01" + behind_size(last, 100),
        "stdout": "".join(leak_output(log, notion) for notion, log in [*listed, (1, last)]).encode("ascii"),
    }


def one_leak(notion, automaton, offered):
    """The files of a program that looks for a first leak."""
    log = with_length(encoded(automaton), bytes(offered))
    return {"stdin": log, "stdout": leak_output(log, notion).encode("ascii")}


def the_one(asked):
    """The run that excuses the chamber, or None; there is no other."""
    found = only(asked)
    assert exists(asked) == (found is not None)
    return found


def main():
    """Writes all, or compares all: the exit status."""
    files = {"log_sample": sample(), "leak_sample": leak_sample(), **{name: one_leak(*search) for name, search in SEARCHES.items()}}
    files["canonical_encoding"] = {"stdin": encoded(UNSORTED), "stdout": canonical_output(encoded(UNSORTED))}
    files["witness_log"] = {"stdin": EXCUSED, "stdout": witness_output(EXCUSED, the_one).encode("ascii")}
    return max([store(CRATES / name, stored) for name, stored in files.items()])


if __name__ == "__main__":
    sys.exit(main())
