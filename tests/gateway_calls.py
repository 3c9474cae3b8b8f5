"""Writes the calls that crates/gateway_calls makes, and what it prints for them, as the lister expects it: `python3 tests/gateway_calls.py`.

With `--check` nothing is written, and the exit status is 1 where the stored files differ from what would be written.
"""

import copy
import itertools
import pathlib
import random
import sys

from calls import SIZES, Calls
from canonical import canonical, meaning
from examples import (
    AFTER_ANY, ALL_SECRET, CLOSING, CORNERS, EXPLORATIONS, FIRST_LEAKS, LATER, NONE_SECRET, ONE, ONE_SYMBOL, OPENING, OUT_AND_BACK, OWN_NUMBERS, P,
    P0, P1, P_ENCODING, P_SECRETS, P_SYMBOLS, PASSING, Q, Q_ENCODING, STRONG_ONLY, T, TAIL, U, WEAK_LATER, WIDENING, WITNESSES, hops, rings, secret,
    subsets,
)
from explorations import explored
from generate import (
    ENCODING_DAMAGES, many_transitions, random_automaton, random_offers, random_secrets, random_trace, spelled, wide_automaton, with_other,
    with_repeat, with_symbols, with_transitions,
)
from logs import decoded, encoded
from mistaken_witnesses import BY_ASKING, BY_WAYS, telling
from mistakes import OF_ONE, OF_SEVERAL, mistaken, mistaken_exploration, search_case
from runs import Automaton, Listing, Secret, TooManyRuns
from saved import (
    ENFORCER_BYTES, ESTIMATOR_BYTES, EXPLORATION_BYTES, FURTHER_BYTES, HEADER_BYTES, JUDGEMENT_BYTES, NOTION, PENDING, PLACE_BYTES, RELEASE_BYTES,
    RUN_BYTES, SECRETS, SIZE_BYTES, SYMBOLS, VALID_BYTES, WORDS, bits, estimator_bytes, header_of, secrets_bytes, size_bytes, table_of,
)
from stored import store
from witnesses import MOST_PAIRS, OUTPUT_BYTES, Ways, asked_after, exists, is_witness, listed, only, random_run, shortest

RANDOM, SEVERAL, DAMAGED, OPEN, EXPLORED, SEARCHED, WRITTEN, EXCUSED, UNGROWN = 150, 48, 80, 40, 40, 304, 12, 12, 16
SEED = 5
FOLDER = pathlib.Path(__file__).resolve().parent.parent / "crates" / "gateway_calls"

# what is lent to be written over: bytes that no function writes, and for an output a different one in each place
HEADER, ESTIMATOR, JUDGEMENT, ENFORCER, RELEASE, EXPLORATION, PLACE, SIZE = (
    b"\xee" * size
    for size in (HEADER_BYTES, ESTIMATOR_BYTES, JUDGEMENT_BYTES, ENFORCER_BYTES, RELEASE_BYTES, EXPLORATION_BYTES, PLACE_BYTES, SIZE_BYTES)
)
OUTPUT = bytes(range(0xA0, 0xB1))
ROOM, RUN, VALID = b"\xee" * OUTPUT_BYTES, b"\xee" * RUN_BYTES, b"\xee" * VALID_BYTES
# the longest encoding there is: symbols, and 1,023 different transitions, the last with every bit 1
MANY = many_transitions(random.Random("longest"), 1022) + [(63, 31, 63)]
LONGEST = Automaton(63, 31, 15, 63, set(range(64)), set(range(32)), MANY, range(31, -1, -1))


def changed(data, at, byte):
    """The bytes with one of them changed."""
    return data[:at] + bytes([byte]) + data[at + 1 :]


def resized(data, size):
    """The bytes cut, or with more behind them."""
    return data[:size] + b"\xdd" * (size - len(data))


def give(calls, secrets):
    """Lends these further secrets from now on."""
    data = secrets_bytes(secrets)
    if calls.slices["further"] != data:
        calls.put(further=data)


def lend_all(calls):
    """Slices of the right sizes, and no further secret."""
    give(calls, ())
    calls.put(estimator=ESTIMATOR, judgement=JUDGEMENT, enforcer=ENFORCER, output=OUTPUT, release=RELEASE, exploration=EXPLORATION)


# decoding


def decodings(calls):
    """P and Q, damaged forms of them, the smallest and the longest encoding, over a table that holds other words."""
    calls.say("decode: P and Q, and damaged forms of them")
    calls.put_table([1] + [0] * (WORDS - 2) + [7])
    calls.put(header=HEADER)
    q, smallest = Q_ENCODING, bytes((0, 0, 0, 0, 0xC0))
    longest = encoded(LONGEST)
    assert len(longest) == 2210
    damaged = [changed(q, at, byte) for at, byte in ((8, 0x05), (3, 0x05), (2, 0x18), (5, 0x61), (5, 0x02), (6, 0x0C))]
    damaged += [q[:8], q + b"\0", changed(q, 2, 0x18)[:3], q[:7] + b"\x00\x82", q[:7] + b"\x00\x84"]
    for data in [P_ENCODING[:15], b"", P_ENCODING, q] + damaged:
        calls.put(encoding=data)
        calls.decode()
    calls.say("the smallest and the longest encoding, with a padding bit, cut, and a byte longer")
    for data in (smallest, changed(smallest, 4, 0xC1), smallest[:4], changed(longest, 2209, 0xFF), longest[:2209], longest, longest + b"\0"):
        calls.put(encoding=data)
        calls.decode()


def symbol_decodings(calls):
    """Encodings with symbols."""
    calls.say("decode: P with symbols; with one too few; without, but said to follow; cut at every byte from the first symbol on; with a padding bit")
    calls.put_table([0] * WORDS)
    whole = encoded(P_SYMBOLS)
    few = copy.copy(P_SYMBOLS)
    few.symbols = few.symbols[1:]
    for data in [whole, encoded(few), encoded(P, listed=1)] + [whole[:size] for size in range(4, len(whole))] + [encoded(P_SYMBOLS, padding=1)]:
        calls.put(encoding=data, header=HEADER)
        calls.decode()
    calls.say("the smallest encoding with symbols: observable, not observable, with a padding bit, cut")
    for last in (b"\xfe", b"\xbe", b"\xff", b""):
        calls.put(encoding=bytes((0, 0, 0, 1)) + last, header=HEADER)
        calls.decode()
    calls.say("own numbers listed; a stray initial state before symbols that are cut, and stray transitions behind symbols")
    own = with_symbols(P, range(3))
    strays = [encoded(with_transitions(own, [], 4))[:4], encoded(with_transitions(own, [(4, 3, 0)])), encoded(with_transitions(own, [(0, 3, 4)]))]
    for data in [encoded(own)] + strays:
        calls.put(encoding=data, header=HEADER)
        calls.decode()
    calls.say("symbols of 1 to 32 events, of which all, some or none are observable")
    rng = random.Random("symbols")
    for top in range(32):
        observable = (range(top + 1), rng.sample(range(top + 1), (top + 1) // 2), ())[0 if top % 8 == 7 else 2 if top % 16 == 4 else 1]
        automaton = Automaton(rng.randrange(64), top, 3, 0, (), observable, [(0, top, 0)], [rng.randrange(32) for _ in range(top + 1)])
        calls.put(encoding=encoded(automaton), header=HEADER)
        calls.decode()


def decoding_sizes(calls):
    """Tables and headers of other sizes: 9, whatever is wrong with the encoding (cut, cut symbols, state, event, padding bit, repeat)."""
    calls.say("decode: tables and headers of other sizes")
    q = Q_ENCODING
    faults = [P_ENCODING[:15], encoded(P_SYMBOLS)[:6], changed(q, 2, 0x18), encoded(with_transitions(P, [(0, 3, 0)])), changed(q, 8, 0x05)]
    for data in faults + [encoded(with_repeat(P, 0, 1)), P_ENCODING]:
        calls.put(encoding=data, header=HEADER)
        for size in (2049, 2047, 0, 2048):
            calls.put_table([0] * min(size, 2046) + [5] * (2046 < size) + [0] * (size - 2047))
            calls.decode()
        for size in (14, 45, 47, 0):
            calls.put_table([0] * 2046 + [5, 0])
            calls.put(header=resized(HEADER, size))
            calls.decode()


def repeats(calls):
    """Transitions that are listed twice."""
    calls.put(header=HEADER)
    calls.say("decode: one transition 1,023 times; cut behind the second, and inside it, with symbols and without")
    ones = changed(b"\xff" * 2210, 2209, 0xFE)
    for data in (ones, ones[:41], ones[:40], changed(ones[:21], 3, 0xFE), changed(ones[:20], 3, 0xFE)):
        calls.put(encoding=data)
        calls.decode()
    calls.say("P with each of its transitions a second time, at each place behind the first")
    for first in range(5):
        for distance in range(1, 6 - first):
            calls.put(encoding=encoded(with_repeat(P, first, distance)))
            calls.decode()
    calls.say("the longest encoding, whose last transition is its first, its second, and the one before it")
    for first in (0, 1, 1021):
        calls.put(encoding=encoded(with_transitions(LONGEST, LONGEST.transitions[:1022] + [LONGEST.transitions[first]])))
        calls.decode()
    calls.say("P with another from, event or to: no repeat")
    for near in ((1, 1, 3), (2, 2, 3), (2, 1, 2)):
        calls.put(encoding=encoded(with_transitions(P, P.transitions + [near])))
        calls.decode()


def random_decodings(calls):
    """Random encodings, whole and damaged."""
    calls.say("decode: random encodings, whole and damaged")
    for i in range(DAMAGED):
        rng = random.Random(f"encoding {SEED} {i}")
        automaton = random_automaton(rng)
        log = rng.choice(ENCODING_DAMAGES)(rng, automaton, b"")
        calls.put(encoding=log[2:], header=HEADER)
        calls.decode()


# chains of calls


def decode(calls, automaton):
    """The table and the header of an automaton, by its encoding."""
    calls.put_table([0] * WORDS)
    calls.put(encoding=encoded(automaton), header=HEADER)
    calls.decode()


def observe(calls, offered, secrets=()):
    """A fresh estimator with these further secrets, and each byte in turn."""
    give(calls, secrets)
    calls.put(estimator=ESTIMATOR, judgement=JUDGEMENT)
    calls.fresh()
    for byte in offered:
        calls.accept(byte)


def enforce(calls, notion, offered, output=OUTPUT, secrets=()):
    """A started enforcer with these further secrets, and each byte in turn, with an output that is lent anew or stays as the last offer left it."""
    give(calls, secrets)
    calls.put(enforcer=ENFORCER, release=RELEASE, output=output)
    calls.start(notion)
    for byte in offered:
        if output == OUTPUT and calls.slices["output"] != OUTPUT:
            calls.put(output=OUTPUT)
        calls.offer(byte)


def verifiers(calls):
    """01's examples: verifiers."""
    calls.say("verifier: an encoding that is refused leaves a header that is none")
    calls.put_table([0] * WORDS)
    calls.put(encoding=P_ENCODING[:15], header=HEADER)
    calls.decode()
    observe(calls, (1,))
    for name, automaton, offered in (
        ("Q", Q, (1, 1, 1)),
        ("T", T, (1,)),
        ("the one state 0, secret", ONE, (1,)),
        ("U", U, (1, 1, 1)),
        ("P", P, (1, 2, 2, 0, 200, 1, 1)),
    ):
        calls.say(f"verifier: {name}")
        decode(calls, automaton)
        observe(calls, offered)
    for automaton in (P1, P0):
        calls.say(f"verifier: P with K {automaton.k}")
        calls.put(header=header_of(automaton))
        observe(calls, (1, 2, 2, 0, 200, 1, 1))
    calls.say("verifier: states 60 to 63, event 31, K 15 and a cycle of unobservable transitions")
    calls.lend(CORNERS)
    observe(calls, (0, 32, 255) + (31,) * 18)
    decode(calls, CORNERS)
    observe(calls, (31, 31))
    calls.say("verifier: every transition, and every state secret; then none")
    calls.lend(ALL_SECRET)
    observe(calls, (31, 0, 31))
    calls.put(header=header_of(NONE_SECRET))
    observe(calls, (31, 0, 31))


def alike():
    """All 32 events leave state 0: event 30 for state 1, each other one for two further states, and again from one of them. The even events have the
    symbol 30, the odd ones 1. States 0 and 1 are not secret."""
    words = [0] * WORDS
    for event in range(1, 32):
        words[64 * event] = 3 << 2 * event
        words[64 * event + 2 * event] = 1 << 63 - event
    words[0], words[64 * 30] = 1 << 63, 1 << 1
    return words, bytes((0, 2, 0xFC)) + b"\xff" * 11 + bytes((30, 1) * 16)


def symbols(calls):
    """Automata with symbols, with several K."""
    others = (31, 32, 255)
    for name, automaton, offered in (
        ("P, with symbols", P_SYMBOLS, (1, 2, 34, 0) + others + (0, 2, 2, 0, 2)),
        ("two events with their own numbers", OWN_NUMBERS, (0, 7, 2, 1, 2)),
        ("two events with one symbol", ONE_SYMBOL, (0, 7, 1, 39, 7, 2) + others + (7, 2)),
        ("two events with one symbol, told apart by what follows", LATER, (7, 0, 3, 7, 2, 7, 7)),
    ):
        for k in (0, 1, 15):
            calls.say(f"{name}, K {k}")
            decode(calls, with_symbols(automaton, automaton.symbols, k))
            observe(calls, offered)
            for notion in (0, 1):
                enforce(calls, notion, offered, b"\xee" * 17)
    calls.say("the symbol of an observable event is the number of an unobservable one, and the other way around")
    calls.lend(with_symbols(CORNERS, [31] + [8] * 30 + [0]))
    observe(calls, (31, 8) + (0,) * 4)
    enforce(calls, 0, (31, 8) + (0,) * 4)
    calls.say("every transition and no state secret, one symbol for all events; then one for each, and events that have no transitions")
    calls.lend(with_symbols(NONE_SECRET, [31] * 32))
    observe(calls, (0, 31, 30, 31))
    calls.put(header=header_of(with_symbols(NONE_SECRET, range(31, -1, -1))))
    observe(calls, (0, 31, 32))
    calls.put_table([0] * 64 * 5 + [6] + [0] * (WORDS - 64 * 5 - 1))
    calls.put(header=header_of(Automaton(63, 31, 0, 0, (), {5, 6, 31}, (), [9] * 5 + [0] + [4] * 25 + [30])))
    observe(calls, (5, 4, 30, 9, 31, 0, 0))
    calls.say("32 events with two symbols: event 30, and then none, leads to a state that is not secret")
    words, header = alike()
    calls.put_table(words)
    for given in (header, changed(header, 2, 0xFE)):
        calls.put(header=given)
        observe(calls, (30, 0, 30, 1))
        observe(calls, (1, 2, 1))
        for notion in (0, 1):
            enforce(calls, notion, (30, 1))


def enforcers(calls):
    """01's examples: enforcers."""
    for automaton in (P, P1, P0):
        for notion in (0, 1):
            calls.say(f"enforcer: P with K {automaton.k}, notion {notion}")
            calls.lend(automaton)
            enforce(calls, notion, (1, 2, 2, 0, 200))
            for byte, size in ((1, 16), (2, 0), (1, 18), (1, 17)):
                calls.put(output=resized(OUTPUT, size))
                calls.offer(byte)
    for name, automaton, offered in (
        ("the one state 0, secret", ONE, (1,)),
        ("T", T, (1,)),
        ("the one state 0, secret, event 1 observable", Automaton(0, 1, 0, 0, {0}, {1}, []), (1,)),
        ("T, event 1 observable", Automaton(1, 1, 0, 0, {0}, {1}, T.transitions), (1,)),
        ("U", U, (1, 1, 1)),
        ("Q", Q, (1,)),
        ("weak and strong differ", STRONG_ONLY, (1, 1, 1, 2, 1, 1, 2, 2, 2, 1)),
        ("states 60 to 63, event 31 and K 15", CORNERS, (0, 32) + (31,) * 18),
        ("every transition, every state secret", ALL_SECRET, (31,)),
        ("every transition, no state secret", NONE_SECRET, (31, 0, 31)),
    ):
        for notion in (0, 1):
            calls.say(f"enforcer: {name}, notion {notion}")
            calls.lend(automaton)
            enforce(calls, notion, offered)
    calls.say("verifier: weak and strong differ")
    calls.lend(STRONG_ONLY)
    observe(calls, (1, 1, 1, 2, 1, 1, 2, 2, 2, 1))


def sizes(calls):
    """Estimates of every size, and of any states. The enforcer's is that of all accepted symbols: CLOSING's last ones are pending."""
    calls.say("estimate sizes: from 64 states to 1, and from 1 to 64")
    for automaton, count in ((CLOSING, 64), (WIDENING, 65)):
        calls.lend(automaton)
        observe(calls, (1,) * count)
        for notion in (0, 1):
            enforce(calls, notion, (1,) * count, b"\xee" * 17)
    calls.say("estimate sizes: any states, right after the symbol, then with unobservable transitions from some of them, then of an opening")
    rng = random.Random("sizes")
    words = [0] * WORDS
    for event in range(31):
        words[64 * event] = bits(rng.sample(range(64), 2 * event + rng.randrange(1, 4)))
    open_events = header_of(Automaton(63, 31, 0, 0, (), range(31), ()))
    calls.put_table(words)
    calls.put(header=open_events)
    for event in range(31):
        observe(calls, (event,))
    for source in rng.sample(range(1, 64), 12):
        words[64 * 31 + source] = bits(rng.sample(range(1, 64), rng.randrange(1, 6)))
    calls.put_table(words)
    for event in range(31):
        enforce(calls, event % 2, (event,), b"\xee" * 17)
    for count in (0, 1, 7, 31, 32, 33, 63):
        words[64 * 31] = bits(rng.sample(range(1, 64), count))
        calls.put_table(words)
        observe(calls, ())


# refusals


def refuse_all(calls, call, slices, incompatible):
    """Every refusal that a call on good slices can get: 6, 7, and 9 by each slice; the slices are as they were."""
    for byte in (0, 200, 255) + incompatible:
        call(byte)
    for name in slices:
        good = calls.slices[name]
        calls.put(**{name: good[:-1]})
        call(1)
        calls.put(**{name: good})


def refused_everywhere(calls):
    """Refused calls before, between and after the calls of a list, which go on as if they had not been."""
    incompatible = {0: (2,), 1: (), 2: (2,), 3: (2,), 4: (2,)}
    calls.say("refused calls in every place of a list")
    calls.lend(P)
    calls.put(estimator=ESTIMATOR, judgement=JUDGEMENT)
    calls.fresh()
    for place, byte in enumerate((1, 2, 1, 1, None)):
        refuse_all(calls, calls.accept, ("header", "estimator", "judgement"), incompatible[place])
        if byte is not None:
            calls.accept(byte)
    for notion in (0, 1):
        calls.put(enforcer=ENFORCER, output=OUTPUT, release=RELEASE)
        calls.start(notion)
        for place, byte in enumerate((1, 2, 1, 1, None)):
            calls.put(output=OUTPUT[:16])
            calls.offer(1)
            calls.put(output=OUTPUT)
            refuse_all(calls, calls.offer, ("header", "enforcer", "release"), incompatible[place])
            if byte is not None:
                calls.offer(byte)


FUNCTIONS = (
    ("decode", (), ("header",)),
    ("fresh", (), ("header", "further", "estimator", "judgement")),
    ("accept", (1,), ("header", "estimator", "judgement")),
    ("start", (0,), ("header", "further", "enforcer")),
    ("offer", (1,), ("header", "enforcer", "release")),
    ("explore", (256,), ("header", "further", "exploration")),
    ("first_leak", (0,), ("header", "further", "place")),
)


def wrong_sizes(calls):
    """Each slice of each function one shorter, one longer and empty, and 9 before 10, 6 and 7."""
    calls.say("slices of other sizes")
    for function, arguments, names in FUNCTIONS:
        for name in ("table",) + names:
            for off in (-1, 1, None) + (-32,) * (name == "header"):
                ready(calls, function)
                if name == "table":
                    words = list(calls.table)
                    calls.put_table([] if off is None else words[:-1] if off < 0 else words + [3])
                else:
                    calls.put(**{name: resized(calls.slices[name], 0 if off is None else SIZES[name] + off)})
                assert getattr(calls, function)(*arguments) == 9
    calls.say("states as an earlier version saved them, without further secrets")
    for function, name, size in (("accept", "estimator", 144), ("offer", "enforcer", 178)):
        ready(calls, function)
        state = calls.slices[name]
        calls.put(**{name: state[:SECRETS] + state[SECRETS + FURTHER_BYTES :]})
        assert len(calls.slices[name]) == size
        for byte in (1, 2, 200):
            assert getattr(calls, function)(byte) == 9
    calls.say("9 before 10 and 6")
    ready(calls, "offer")
    for size in (0, 1, 3, 2):
        calls.put(output=OUTPUT[:16], release=resized(RELEASE, size))
        calls.offer(200)
    calls.say("9 before 6 and 7")
    ready(calls, "accept")
    for size in (0, 3, 8, 10, 9):
        calls.put(judgement=resized(JUDGEMENT, size))
        for byte in (200, 2):
            calls.accept(byte)
    ready(calls, "offer")
    for size in (0, 1, 3, 2):
        calls.put(release=resized(RELEASE, size))
        for byte in (200, 2):
            calls.offer(byte)


def ready(calls, function):
    """P, and slices on which the function answers 0."""
    calls.put_table(table_of(P))
    calls.put(encoding=P_ENCODING, header=header_of(P))
    lend_all(calls)
    if function == "accept":
        calls.fresh()
    if function == "offer":
        calls.start(0)
    if function == "first_leak":
        calls.put(events=(0, 1, 2), place=PLACE)


def outside_limits(calls):
    """K, initial states and notions outside their limits."""
    calls.say("K 16 and 255, initial state 64 and 255, notion 2 and 255")
    for at, byte in ((1, 16), (1, 255), (0, 64), (0, 255)):
        calls.lend(P)
        lend_all(calls)
        calls.fresh()
        calls.start(0)
        calls.put(header=changed(header_of(P), at, byte))
        calls.accept(1)
        calls.offer(1)
        lend_all(calls)
        for notion in (0, 1):
            calls.start(notion)
        calls.fresh()
        calls.accept(1)
        calls.offer(1)
    calls.lend(P)
    lend_all(calls)
    for notion in (2, 255):
        calls.start(notion)


# P with events up to 31 and symbols, in a header by hand: event 31 has no transitions, and event 0 and the others are not observable
BY_HAND = Automaton(63, 31, 2, 0, {1}, {1, 2, 31}, P.transitions, [0, 2, 0] + [0] * 28 + [31])


def header_symbols(calls):
    """Symbols above 31 in a header: 9 where the event is observable; of the other events they count for nothing."""
    calls.say("headers: symbols above 31 of observable events")
    calls.lend(BY_HAND)
    lend_all(calls)
    calls.fresh()
    calls.start(1)
    calls.accept(2)
    calls.offer(2)
    good = calls.slices["header"]
    for event in (1, 2, 31):
        for symbol in (32, 255):
            calls.put(header=changed(good, SYMBOLS + event, symbol))
            for byte in (2, symbol):
                calls.accept(byte)
                calls.offer(byte)
            calls.fresh()
            calls.start(0)
            calls.start(1)
    calls.say("9 before 10 and 6, and before a notion")
    calls.put(output=OUTPUT[:16])
    calls.offer(200)
    calls.start(2)
    calls.put(header=good)
    calls.offer(200)
    calls.put(output=OUTPUT)
    calls.say("the trace goes on, also where the symbols of the other events change")
    everywhere = good[:SYMBOLS] + bytes(good[SYMBOLS + event] if event in BY_HAND.observable else 255 - event for event in range(32))
    for header, byte in ((good, 0), (changed(good, SYMBOLS, 2), 2), (everywhere, 31), (changed(good, SYMBOLS + 30, 32), 2)):
        calls.put(header=header)
        calls.accept(byte)
        calls.offer(byte)
    calls.say("headers: symbols of events that are not observable")
    for event, symbol in ((0, 32), (0, 255), (0, 9), (0, 2), (0, 31), (3, 0)):
        calls.put(header=changed(good, SYMBOLS + event, symbol))
        observe(calls, (symbol, 2, symbol, 0))
        enforce(calls, 0, (symbol, 2, symbol, 0), b"\xee" * 17)
    calls.put(header=everywhere)
    observe(calls, (2, 255, 252, 0))
    enforce(calls, 1, (2, 255, 252, 0), b"\xee" * 17)
    calls.say("headers: a symbol of 32 at each event, of which every other is observable")
    every_other = header_of(Automaton(63, 31, 0, 0, (), range(1, 32, 2), ()))
    calls.put(estimator=ESTIMATOR, judgement=JUDGEMENT)
    for event in range(32):
        calls.put(header=changed(every_other, SYMBOLS + event, 32))
        calls.fresh()


def damaged_states(calls):
    """Saved states that no call wrote: outside their limits, or odd only in places that are not used."""
    calls.say("estimators outside their limits, and odd ones within them")
    calls.lend(P)
    calls.put(estimator=ESTIMATOR, judgement=JUDGEMENT)
    calls.accept(200)
    for count, symbol, entry in ((3, 1, 1), (255, 1, 1), (1, 32, 1), (2, 255, 1), (2, 31, 1), (0, 32, 1)):
        calls.put(estimator=bytes([count] + [symbol] * 15) + bytes((entry, 0, 0, 0, 0, 0, 0, 0)) * 16 + bytes(FURTHER_BYTES))
        calls.accept(200)
        if not calls.estimator_sound(calls.slices["estimator"]):
            calls.accept(1)
    good = estimator_bytes([2, 1], [{0}, {1, 3}, {0}])
    for at in range(16):
        calls.put(estimator=changed(good, at, 32))
        calls.accept(0)
    calls.say("enforcers outside their limits, and odd ones within them")
    calls.put(enforcer=ENFORCER, output=OUTPUT, release=RELEASE)
    calls.offer(200)
    for place in range(4):
        calls.put(enforcer=ENFORCER, output=OUTPUT, release=RELEASE)
        calls.start(1)
        for byte in (1, 2, 1)[:place]:
            calls.offer(byte)
        good = calls.slices["enforcer"]
        for at, byte in (
            [(0, 3), (1, 32), (2, 32), (3, 32), (NOTION, 2), (NOTION, 255), (PENDING, 4), (PENDING, 16), (PENDING, 255)]
            + [(PENDING + 1 + i, 32) for i in (0, 1, 2, 15)]
            + [(PENDING + 17, 200), (PENDING + 32, 255)]
        ):
            calls.put(enforcer=changed(good, at, byte), output=OUTPUT, release=RELEASE)
            calls.offer(200)
            if not calls.enforcer_sound(calls.slices["enforcer"]):
                calls.offer(1)
        calls.put(enforcer=good)


# several secrets


def judge_all(calls, automaton, secrets, offered):
    """The verifier, and the enforcer under either notion, with these further secrets."""
    calls.lend(automaton)
    observe(calls, offered, secrets)
    for notion in (0, 1):
        enforce(calls, notion, offered, b"\xee" * 17, secrets)


def several(calls):
    """Further secrets by hand."""
    calls.say("several secrets: P with none further; then with one without states, which is not the same")
    for secrets in ((), (secret(0),), (secret(2),), (secret(4),)):
        judge_all(calls, P, secrets, (1, 2, 1, 1))
    calls.say("several secrets: P with three further ones, with K 0, 15 and 0; then in other orders, and some of them")
    judge_all(calls, P, P_SECRETS, (1, 2, 0, 1) + (1,) * 15)
    first, second, third = P_SECRETS
    for secrets in ((third, second, first), (second, first), (first,), (second,)):
        judge_all(calls, P, secrets, (1, 2, 2, 1, 200, 1))
    for name, automaton, secrets, offered in (
        ("P with K 0, and its secret once more with K 2 and 1", P0, (secret(2, 1), secret(1, 1)), (1, 2, 1, 1, 1)),
        ("P, and its secret once more with K 0", P, (secret(0, 1),), (1, 2, 1, 1)),
        ("P, and its secret three times more", P, (secret(2, 1),) * 3, (1, 2, 1, 1)),
        ("P, and sets that overlap", P, (secret(1, 1, 3), secret(3, 1, 2), secret(2, 2, 3)), (1, 2, 1, 1, 1, 1)),
        ("P, opening as a leak by a further secret, under strong alone", P, (secret(3), secret(1, 0), secret(0, 3)), (1, 2, 1, 1)),
        ("P, opening as a leak by the last further secret", P, (secret(3), secret(1, 3), secret(0, 0, 2)), (1, 2, 1)),
        ("the one state 0, secret, and it once more", ONE, (secret(1, 0),), ()),
        ("U with K 0, a state that no run reaches, and its own secret with K 3", U, (secret(0, 2), secret(3, 1)), (1, 1, 1, 1, 1)),
        ("weak and strong differ for each", STRONG_ONLY, (secret(1, 2), secret(4, 1, 2), secret(0, 1)), (1, 1, 1, 2, 1, 1, 2, 2, 2, 1)),
        ("two events with one symbol", LATER, (secret(1, 2), secret(3, 3), secret(0, 0, 3)), (7, 3, 7, 7, 3, 7)),
        ("states 60 to 63, K 15, further ones with K 0 and 3", CORNERS, (secret(3, 60, 61), secret(0, 61)), (31,) * 5),
        ("every transition, and every state in the second", NONE_SECRET, (secret(3, *range(63)), secret(15, *range(64))), (31, 0)),
        ("every transition, and all states but one in each", NONE_SECRET, (secret(3, *range(63)), secret(15, *range(1, 64))), (31, 0)),
    ):
        calls.say(f"several secrets: {name}")
        judge_all(calls, automaton, secrets, offered)
    calls.say("several secrets: K 0, and K 15 of the first, the second or the third further one: 17 symbols go at once")
    for place in range(3):
        secrets = (secret(0),) * place + (secret(15, 1),)
        calls.lend(PASSING)
        observe(calls, (0,) * (3 + 15 * (place == 2)), secrets)
        enforce(calls, place % 2, (0,) * 17, b"\xee" * 17, secrets)
        assert calls.slices["release"] == bytes((17, 1))
        calls.offer(0)
    calls.say("several secrets: an event and an offer are passed none, whatever is lent to the next start")
    calls.lend(P)
    observe(calls, (1,), P_SECRETS)
    enforce(calls, 0, (1,), secrets=P_SECRETS)
    for byte, data in zip((2, 1, 1, 1), (b"", secrets_bytes(P_SECRETS, 4), secrets_bytes((secret(16, 0),) * 3), secrets_bytes(()))):
        calls.put(further=data)
        calls.accept(byte)
        calls.offer(byte)


def opened_by(calls):
    """A fresh estimator, and a start under either notion, over what no function writes."""
    calls.put(estimator=ESTIMATOR, judgement=JUDGEMENT, enforcer=ENFORCER)
    calls.fresh()
    for notion in (0, 1):
        calls.start(notion)


def with_backs(count, *backs):
    """The bytes of further secrets of which so many are given, with these K in the first places."""
    return secrets_bytes([secret(k, 3) for k in backs], count)


# more than three further secrets; a K above 15, in a place that is given; both
FAULTS = [with_backs(count, 0, 15, 0) for count in (4, 255)]
FAULTS += [with_backs(3, *(k if at == place else 15 for at in range(3))) for place in range(3) for k in (16, 255)]
FAULTS += [with_backs(1, 16), with_backs(2, 1, 16), with_backs(4, 16, 16, 16), b"\xff" * FURTHER_BYTES]


def secret_refusals(calls):
    """13 and 14, what comes before them and behind, and what is left past the count."""
    calls.say("further secrets: more than three; a K above 15, in a place that is given; both")
    calls.lend(P)
    lend_all(calls)
    for data in FAULTS:
        calls.put(further=data)
        calls.fresh()
        for notion in (0, 1):
            calls.start(notion)
    calls.say("further secrets: a K above 15, and any set, past the count: they count for nothing, and a state has 0 there")
    for data in (with_backs(3, 15, 0, 15), with_backs(2, 1, 2, 16), with_backs(1, 0, 16, 255), with_backs(0, 16, 255, 16)):
        calls.put(further=data)
        opened_by(calls)
    for count in (0, 1, 2):
        calls.put(further=bytes([count]) + secrets_bytes(P_SECRETS)[1 : 1 + 9 * count] + b"\xff" * (9 * (3 - count)))
        opened_by(calls)
    calls.accept(1)
    calls.offer(1)
    calls.say("further secrets: 13 and 14 before 8")
    for automaton in (ONE, T):
        calls.lend(automaton)
        for data in (with_backs(4), with_backs(1, 16), with_backs(0, 16)):
            calls.put(further=data)
            opened_by(calls)
    calls.say("further secrets: 8 by one that is given, at each place, under strong, and under both; not by a place past the count")
    calls.lend(Automaton(1, 0, 0, 0, (), (), T.transitions))
    for states in ((0,), (0, 1)):
        for place in range(3):
            for count in (place, place + 1):
                calls.put(further=secrets_bytes([secret(1, 1)] * place + [secret(0, *states)], count))
                for notion in (0, 1):
                    calls.start(notion)
    calls.say("further secrets: 9 before 13 and 14")
    for data in (with_backs(4, 16), with_backs(2, 0, 16)):
        ready(calls, "fresh")
        for size in (0, 1, 10, 27, 29):
            calls.put(further=resized(data, size))
            calls.fresh()
            calls.start(0)
        calls.put(further=data)
        calls.start(2)
        calls.put(estimator=ESTIMATOR[:144], enforcer=ENFORCER[:178])
        calls.fresh()
        calls.start(1)
        calls.put(estimator=ESTIMATOR, enforcer=ENFORCER, judgement=JUDGEMENT[:3])
        calls.fresh()
        calls.put(judgement=JUDGEMENT)
        for at, byte in ((0, 64), (1, 16), (SYMBOLS + 1, 32)):
            calls.put(header=changed(header_of(P), at, byte))
            calls.fresh()
            calls.start(0)
        calls.lend(P)
        calls.put_table(calls.table[:2047])
        calls.fresh()
        calls.start(1)


def past_count(calls, function, name, good, past):
    """A state with other bytes past the count of its further secrets: it grew as without them, and hands them back."""
    for at, data in past:
        calls.put(**{name: good[:at] + data + good[at + len(data) :]})
        for byte, number in ((200, 6), (1, 0), (1, 0)):
            assert getattr(calls, function)(byte) == number
            assert calls.slices[name][at : at + len(data)] == data


def secret_limits(calls):
    """Saved states with further secrets: their limits go by the largest K of those that are given, and outside them they get 9, never 13 or 14. P has
    K 2, and 3 symbols are remembered."""
    given = (secret(0, 3), secret(3, 1))
    k1, k2, k3 = (SECRETS + 9 * place for place in (1, 2, 3))  # where a state has each K
    outside = [(SECRETS, count) for count in (0, 1, 4, 255)] + [(k1, 16), (k1, 255), (k2, 16), (k2, 2), (k2, 255), (0, 4), (3, 32)]
    past = [(k3, b"\x10"), (k3 - 1, b"\xff"), (k2 + 1, b"\x01"), (k2 + 1, b"\xff" * 9)]  # in the third place, where two are given
    calls.say("estimators with further secrets: outside their limits")
    calls.lend(P)
    observe(calls, (1, 2, 1), given)
    good = calls.slices["estimator"]
    for at, byte in outside:
        calls.put(estimator=changed(good, at, byte))
        for symbol in (200, 1):
            assert calls.accept(symbol) == 9
    calls.say("estimators within their limits that did not grow: a symbol past their number")
    calls.put(estimator=changed(good, 4, 32))
    assert calls.accept(200) == 6
    calls.open("accept", 1)
    calls.say("estimators with other bytes past the count of further secrets: they grew as without them, and keep them")
    past_count(calls, "accept", "estimator", good, past)
    calls.put(estimator=good)
    calls.accept(1)
    for few in ((), given[:1]):
        observe(calls, (1, 2), few)
        at = SECRETS + 1 + 9 * len(few)
        past_count(calls, "accept", "estimator", calls.slices["estimator"], [(at, b"\xff" * (k3 + 1 - at))])
    calls.say("a state with another K of a further secret: as it grew with that one")
    observe(calls, (1, 2, 1), (secret(0, 3), secret(15, 1)))
    assert calls.slices["estimator"] == changed(good, k2, 15)
    calls.accept(1)
    calls.say("enforcers with further secrets: the same limits, and more pending than the largest K and one")
    enforce(calls, 0, (1, 2, 1), secrets=given)
    good = calls.slices["enforcer"]
    for at, byte in outside + [(PENDING, 5), (PENDING, 17), (NOTION, 2)]:
        calls.put(enforcer=changed(good, at, byte))
        for symbol in (200, 1):
            assert calls.offer(symbol) == 9
    calls.say("enforcers within their limits that did not grow: a symbol past their number, another K, more pending and fewer")
    for at, byte in ((4, 32), (k2, 15), (PENDING, 4), (PENDING, 0)):
        calls.put(enforcer=changed(good, at, byte))
        assert calls.offer(200) == 6
        calls.open("offer", 1)
    calls.say("enforcers with other bytes past the count of further secrets: they grew as without them, and keep them")
    past_count(calls, "offer", "enforcer", good, past)
    for few in ((), given[:1]):
        for notion in (0, 1):
            enforce(calls, notion, (1, 2), b"\xee" * 17, few)
            at = SECRETS + 1 + 9 * len(few)
            past_count(calls, "offer", "enforcer", calls.slices["enforcer"], [(at, b"\xff" * (k3 + 1 - at))])
    calls.put(output=OUTPUT)
    calls.say("9 by further secrets before 10, 6 and 7")
    calls.put(enforcer=changed(good, SECRETS, 4), output=OUTPUT[:16])
    for byte in (1, 2, 200):
        calls.offer(byte)
    calls.put(enforcer=good)
    calls.offer(200)
    calls.put(output=OUTPUT)
    calls.offer(1)
    calls.say("as many symbols as the largest K: of a further secret, or of the automaton; and one more")
    for automaton, backs, most in ((P0, (3, 1, 2), 3), (P0, (1, 3, 2), 3), (P0, (1, 2, 3), 3), (P, (1, 0), 2), (P0, (), 0), (P, (15,), 15)):
        calls.lend(automaton)
        for count in (most, most + 1):
            state = changed(estimator_bytes([1] * 15, [{3}] * 16, [secret(k, 1) for k in backs]), 0, count)
            calls.put(estimator=state, enforcer=state + bytes([0, count] + [1] * 16 + [9] * 16))
            assert calls.accept(200) == (6 if count == most else 9)
            assert calls.offer(200) == (6 if count == most else 9)
        calls.put(enforcer=changed(state, 0, most) + bytes([1, most + 2] + [1] * 16 + [9] * 16))
        assert calls.offer(200) == 9


# explorations


def malformed(calls, sizes):
    """Puts P's header in other sizes, then with a byte outside its limit, and then other tables: one after another, and says whether it is a limit."""
    for size in sizes:
        calls.put(header=resized(header_of(P), size))
        yield False
    for at, byte in ((0, 64), (1, 16), (SYMBOLS + 1, 32)):
        calls.put(header=changed(header_of(P), at, byte))
        yield True
    calls.lend(P)
    for words in (calls.table[:2047], calls.table + (0,), ()):
        calls.put_table(words)
        yield False


def explore(calls, *budgets):
    """Explorations with each budget, each over what no function writes."""
    for budget in budgets:
        if calls.slices["exploration"] != EXPLORATION:
            calls.put(exploration=EXPLORATION)
        calls.explore(budget)


def explore_around(calls, automaton, secrets, everywhere=False):
    """Explorations with budgets around the number of configurations, or with many everywhere."""
    calls.lend(automaton)
    give(calls, secrets)
    found = calls.found()
    n = 257 if found is None else found.count
    many = {0, 1, n - 1, n, n + 1, 255, 256, 257, 512, 65535, 65536, 65536 + n, 4294967295}
    explore(calls, *sorted(many if everywhere else {n - 1, n, 256}))


def explorations(calls):
    """Explorations by hand, and of some more automata with small K and large. Those with 1, 2, 255 or 256 configurations, and with more, get budgets
    from 0 to the largest number that can be passed."""
    calls.put(exploration=EXPLORATION)
    calls.say("explore: automata worked out by hand")
    for automaton, k, secrets, count, *_ in EXPLORATIONS:
        explore_around(calls, with_symbols(automaton, automaton.symbols, k), secrets, count in (1, 2, 255, 256, None))
    calls.say("explore: 64 states, event 31 and K 15; and some events with one symbol")
    for automaton in (CORNERS, CLOSING, WIDENING, OWN_NUMBERS, ONE_SYMBOL, LATER, STRONG_ONLY, P_SYMBOLS):
        for k in (0, 1, 2, 15):
            explore_around(calls, with_symbols(automaton, automaton.symbols, k), ())
    calls.say("explore: the waits of 256 configurations, by secrets in different places, with different K")
    for secrets in ((secret(0, 1), secret(3, 3)), (secret(15),), (secret(0, 40, 41), secret(0), secret(7, 17, 33)), (secret(0, 0), secret(14))):
        for automaton in (rings(1, 15, 200), rings(1, 0, 3, 100), rings(2, 14), rings(16, 0)):
            explore_around(calls, automaton, secrets)
    for secrets in ((secret(0, 8),), (secret(0), secret(0), secret(0, 1, 2)), (secret(0, *range(8)),), (secret(0, 9),)):
        explore_around(calls, subsets(1), secrets)
    calls.say("explore: the same events with one symbol for all, with two, and with one for each")
    for symbols in ([5] * 32, [5, 6] * 16, range(32)):
        for k in (0, 1, 2):
            explore_around(calls, with_symbols(hops(200), symbols, k), (secret(1, 0, 2, 4, 6),))
    calls.say("explore: 8 is not tested, and the opening waits longest")
    for automaton, secrets in ((OPENING, ()), (ONE, (secret(3, 0),)), (T, (secret(15, 0, 1),)), (P, (secret(1, 0, 2),)), (PASSING, (secret(0, 0),))):
        calls.lend(automaton)
        give(calls, secrets)
        for notion in (0, 1):
            calls.start(notion)
        explore(calls, 256)
    calls.say("explore: after a trace as before it, and the next symbol as if nothing was explored")
    calls.lend(P)
    observe(calls, (1, 2))
    explore(calls, 256, 6)
    calls.accept(1)
    calls.explore(7)
    calls.explore(6)
    calls.explore(300)


def other_lengths(calls):
    """Lends P and further secrets that get 13, 14 or no refusal: in slices of other lengths, and then whole. Yields whether they are whole."""
    for data in (with_backs(4, 16), with_backs(2, 0, 16), with_backs(0)):
        calls.lend(P)
        for size in (0, 1, 10, 27, 29):
            calls.put(further=resized(data, size))
            yield False
        calls.put(further=data)
        yield True


def exploration_refusals(calls):
    """9, 13, 14 and 15, each before the next, and what is left past the count of further secrets."""
    calls.say("explore: K 16 and 255, initial state 64 and 255, symbols above 31 of observable events")
    calls.lend(P)
    lend_all(calls)
    for at, byte in ((1, 16), (1, 255), (0, 64), (0, 255), (SYMBOLS + 1, 32), (SYMBOLS + 2, 255)):
        calls.put(header=changed(header_of(P), at, byte))
        explore(calls, 0, 256)
    calls.say("explore: symbols above 31 of events that are not observable, and stray ones that are symbols of others")
    for symbol in (32, 255, 1):
        calls.put(header=changed(header_of(P), SYMBOLS, symbol))
        explore(calls, 6, 7)
    calls.say("explore: 13, and 14, before 15")
    calls.lend(P)
    for data in FAULTS:
        calls.put(further=data)
        explore(calls, 0, 256)
    calls.say("explore: past the count a K counts for nothing, above 15 or not, and a set neither")
    for data in (with_backs(2, 1, 2, 16), with_backs(1, 0, 16, 255), with_backs(0, 16, 255, 16), with_backs(2, 0, 1, 15), with_backs(0, 15, 15, 15)):
        calls.put(further=data)
        explore(calls, 6, 7, 256)
    calls.say("explore: 9 before 13, 14 and 15")
    for whole in other_lengths(calls):
        if not whole:
            explore(calls, 0)
            continue
        for size in (0, 2, 3, 5, 8):
            calls.put(exploration=resized(EXPLORATION, size))
            calls.explore(0)
        for _ in malformed(calls, (0, 45, 47)):
            explore(calls, 0)


def exploration_case(i):
    """An automaton and further secrets. Nine of ten tell a mistaken program by what is found; the tenth may have any number of configurations."""
    rng = random.Random(f"explorations {SEED} {i}")
    while True:
        automaton = random_automaton(rng)
        secrets = rng.choice((random_secrets(rng, automaton), ()))
        try:
            found = explored(Listing(automaton, secrets, 300))
            if i % 10 == 9 or found and 4 < found.count and found != mistaken_exploration(i % 10, automaton, secrets):
                return rng, automaton, secrets
        except TooManyRuns:
            continue


def random_explorations(calls):
    """Random automata, some with further secrets, with budgets around the number of configurations and any."""
    calls.say("explore: random automata")
    for i in range(EXPLORED):
        rng, automaton, secrets = exploration_case(i)
        explore_around(calls, automaton, secrets)
        explore(calls, rng.randrange(300), rng.randrange(2 ** 32))


# first leaks


def search(calls, automaton, secrets, *offered, notions=(0, 1)):
    """First leaks of offered bytes, of one list or of several, under either notion, each over what no function writes."""
    calls.lend(automaton)
    give(calls, secrets)
    for events in offered:
        calls.put(events=events)
        for notion in notions:
            search_again(calls, notion)


def search_again(calls, *notions):
    """The same with the slices as they are."""
    for notion in notions:
        if calls.slices["place"] != PLACE:
            calls.put(place=PLACE)
        calls.first_leak(notion)


def first_leaks(calls):
    """First leaks by hand, and of long lists, whose places need several bytes."""
    calls.put(place=PLACE)
    calls.say("first leak: places worked out by hand")
    for automaton, secrets, offered, *_ in FIRST_LEAKS:
        search(calls, automaton, secrets, offered)
    calls.say("first leak: P, refused bytes before, between and behind the events, and at every place of the list one more")
    whole = (1, 2, 1, 1)
    search(calls, P, (), *(whole[:at] + (byte,) + whole[at:] for at in range(5) for byte in (0, 2, 255)), notions=(0,))
    search(calls, P, (), (0, 2, 3, 255), (0, 2, 255, 1, 1, 200, 0, 2, 2), (32, 33, 34, 1, 33, 129, 34, 66, 2, 33), notions=(1,))
    calls.say("first leak: a list that ends right before the event, right behind it, or goes on in any way")
    search(calls, P, (), (1,), *((1, 2) + rest for rest in ((), (0,), (1,), (2, 2), (255,) * 9, (1, 1, 1, 1), (1, 2, 1, 2))))
    search(calls, WEAK_LATER, (), *((2, 2, 1) + rest for rest in ((), (3,), (1,), (1, 3), (1, 3, 3), (1, 2, 3), (200, 1, 1, 3))))
    calls.say("first leak: bytes of which the low bits are a symbol")
    search(calls, ONE_SYMBOL, (), (7, 39, 71, 34, 2), (135, 231, 7, 66, 2))
    search(calls, OWN_NUMBERS, (), (32, 64, 128, 1, 34, 2, 32, 0), (255, 224, 0))
    calls.say("first leak: the leak is the first event of many, the last one, and none at all; places of one byte and of two")
    lists = [bytes(size) + b"\x01" for size in (0, 1, 254, 255, 256, 300, 4095)]
    lists += [b"\xff" * 300 + bytes(255) + b"\x02" * 40 + b"\x01" + b"\xff" * 300, b"\x01" + bytes(4095), bytes(4096), b"\x02" * 4096, bytes(257)]
    search(calls, AFTER_ANY, (), *lists, notions=(0,))
    search(calls, AFTER_ANY, (), bytes(511) + b"\x01\x00", bytes(4094) + b"\x02\x01", notions=(1,))
    calls.say("first leak: the reader's view closes in on the secret state, or opens; one of 240 events in two rings; K 15")
    search(calls, CLOSING, (), (1,) * 62, (1,) * 63, (1, 0) * 64)
    search(calls, WIDENING, (), (1,) * 65)
    search(calls, WIDENING, (secret(1), secret(0, *range(9)), secret(3, *range(5, 64))), (1,) * 12)
    for automaton in (rings(2, 15, 200), rings(16, 0, 239), rings(1, 3)):
        search(calls, automaton, (), (0,) * 300)
    search(calls, CORNERS, (), (0, 32) + (31,) * 3)
    search(calls, CORNERS, (secret(3, 60, 61), secret(0, 61)), (31,) * 3)
    for k in (0, 14, 15):
        # event 1 tells, 15 events later, that the first one led to state 1 and not to 2
        chain = [(0, 0, 1), (0, 0, 17)] + [(at, 0, at + 1) for at in range(1, 15)] + [(17, 0, 17), (15, 1, 16)]
        search(calls, Automaton(17, 1, k, 0, {1}, {0, 1}, chain), (), (0,) * 15 + (1,), (0,) * 15 + (1, 1))
    calls.say("first leak: every transition, every state secret, and none; all but one")
    for automaton, secrets in ((ALL_SECRET, ()), (NONE_SECRET, ()), (NONE_SECRET, (secret(3, *range(63)), secret(15, *range(1, 64))))):
        search(calls, automaton, secrets, (32, 31, 0))
    calls.say("first leak: 8 is not tested")
    for automaton, secrets in ((OPENING, ()), (ONE, (secret(3, 0),)), (T, (secret(15, 0, 1),)), (P, (secret(1, 0, 2),)), (PASSING, (secret(0, 0),))):
        search(calls, automaton, secrets, (1, 0, 0))
        for notion in (0, 1):
            calls.start(notion)
    calls.say("first leak: after a trace as before it, and the next symbol as if nothing was looked for; the same list again, over the last place")
    calls.lend(P)
    observe(calls, (1, 2))
    calls.put(events=(1, 0, 2), place=PLACE)
    for notion in (0, 1, 0):
        calls.first_leak(notion)
    calls.accept(1)
    calls.put(events=(2, 1))
    calls.first_leak(0)


def search_refusals(calls):
    """9, 13 and 14, each before the next, whatever is offered, and what is left past the count of further secrets. The place stays as it was."""
    calls.say("first leak: K 16 and 255, initial state 64 and 255, symbols above 31 of observable events, notion 2 and 255")
    calls.lend(P)
    lend_all(calls)
    calls.put(events=(1, 2), place=range(1, 9))
    for at, byte in ((1, 16), (1, 255), (0, 64), (0, 255), (SYMBOLS + 1, 32), (SYMBOLS + 2, 255)):
        calls.put(header=changed(header_of(P), at, byte))
        for notion in (0, 1):
            assert calls.first_leak(notion) == 9
    calls.lend(P)
    for notion in (2, 3, 128, 255):
        assert calls.first_leak(notion) == 9
    calls.say("first leak: symbols above 31 of events that are not observable, and stray ones that are symbols of others")
    for symbol in (32, 255, 1):
        calls.put(header=changed(header_of(P), SYMBOLS, symbol), events=(symbol, 1, symbol, 2))
        search_again(calls, 0, 1)
    calls.say("first leak: 13, and 14, with events and without; the place of an earlier call stays")
    calls.lend(P)
    for events in ((1, 2), ()):
        calls.put(events=events)
        for data in FAULTS:
            calls.put(further=data)
            for notion in (0, 1):
                assert calls.first_leak(notion) in (13, 14)
    calls.put(further=secrets_bytes(()), events=(1, 2))
    calls.first_leak(0)
    for data in (FAULTS[0], FAULTS[2]):
        calls.put(further=data)
        calls.first_leak(0)
    calls.say("first leak: past the count a K counts for nothing, above 15 or not, and a set neither")
    for data in (with_backs(2, 1, 2, 16), with_backs(1, 0, 16, 255), with_backs(0, 16, 255, 16), with_backs(0, 15, 15, 15)):
        calls.put(further=data, events=(1, 1, 1))
        search_again(calls, 0)
    calls.put(further=changed(secrets_bytes([secret(0), secret(0, 0, 1, 2, 3)]), 0, 1))
    search_again(calls, 0, 1)
    calls.put(further=changed(calls.slices["further"], 0, 2))
    search_again(calls, 0, 1)
    calls.say("first leak: 9 before 13 and 14")
    for whole in other_lengths(calls):
        if not whole:
            search_again(calls, 0)
            continue
        for notion in (2, 255):
            search_again(calls, notion)
        for size in (0, 1, 4, 7, 9, 16):
            calls.put(place=resized(PLACE, size))
            assert calls.first_leak(1) == 9
        for limit in malformed(calls, (0, 14, 45, 47)):
            search_again(calls, int(limit))


def random_first_leaks(calls):
    """Random automata, some with further secrets, and bytes to offer, of which some are refused. All but one of sixteen tell a mistaken program, every
    other time by an event that is not the first."""
    kinds = (*OF_ONE, *OF_SEVERAL, None)
    calls.say("first leak: random automata")
    for i in range(SEARCHED):
        opening, offered = search_case(random.Random(f"searches {SEED} {i}"), kinds[i % len(kinds)], 2 * (i // len(kinds) % 2))
        search(calls, opening.automaton, opening.secrets[1:], offered)


# canonical forms


def lent_output(size):
    """An output of so many bytes, none of them 0: a different one in each place, or one for all of a long output."""
    return bytes(255 - place for place in range(size)) if size < 255 else b"\xee" * size


def write(calls, data, *sizes):
    """The canonical form of an encoding, into outputs of these sizes, each over what the function does not write."""
    calls.put(encoding=data)
    for size in sizes:
        if calls.slices["size"] != SIZE:
            calls.put(size=SIZE)
        calls.put(output=lent_output(size))
        calls.canonical()


def write_form(calls, data, *more):
    """The same into an output of just enough bytes, and into ones with so many more; then of what was written, which is the same. Hands it back."""
    form = canonical(data)
    write(calls, data, *(len(form) + count for count in (0, *more)))
    assert calls.slices["output"][: len(form)] == form and calls.slices["size"] == size_bytes(len(form))
    if data != form:
        write(calls, form, len(form))
        assert calls.slices["output"] == form and calls.slices["size"] == size_bytes(len(form))
    return form


# P with more transitions, some of which differ in the last state alone, in no order
FORKED = with_transitions(P, [(2, 1, 3), (0, 1, 3), (1, 2, 0), (0, 1, 0), (3, 1, 3), (0, 0, 2), (0, 1, 1)])


def canonical_orders(calls):
    """Transitions in several orders, and outputs of several sizes."""
    calls.say("canonical: P and Q, whose transitions rise; outputs with just enough bytes, one fewer, one more, many more, and none")
    for data in (P_ENCODING, Q_ENCODING):
        write(calls, data, *(len(data) + count for count in (0, -1, 1, 30, -len(data))))
        assert canonical(data) == data
    calls.say("canonical: P and Q with their transitions in other orders")
    by_event = sorted(P.transitions, key=lambda transition: transition[1])
    for listed in (P.transitions[::-1], P.transitions[2:] + P.transitions[:2], by_event):
        assert write_form(calls, encoded(with_transitions(P, listed))) == P_ENCODING
    assert write_form(calls, encoded(with_transitions(Q, Q.transitions[::-1]))) == Q_ENCODING
    calls.say("canonical: three transitions in every order: of one state and event, and of several; then seven")
    for listed in ([(0, 1, 0), (0, 1, 1), (0, 1, 3)], [(0, 2, 1), (1, 0, 0), (1, 1, 0)]):
        for order in itertools.permutations(listed):
            write(calls, encoded(with_transitions(P, order)), 12)
    for listed in (FORKED.transitions, FORKED.transitions[::-1]):
        write_form(calls, encoded(with_transitions(FORKED, listed)), 3)
    calls.say("canonical: a form is decoded as the encoding is")
    for automaton in (FORKED, with_symbols(FORKED, [31, 1, 0])):
        decode(calls, automaton)
        left = calls.table, calls.slices["header"]
        calls.put(encoding=canonical(encoded(automaton)), header=HEADER)
        calls.decode()
        assert (calls.table, calls.slices["header"]) == left


def canonical_symbols(calls):
    """Symbols that are needed, by every event or by one alone, and symbols that are not; and those of unobservable events."""
    calls.say("canonical: P with symbols of which none is needed, whatever event 0 has, which is not observable")
    for first in (0, 1, 31):
        assert write_form(calls, encoded(with_symbols(P, [first, 1, 2]))) == P_ENCODING
    calls.say("canonical: P with symbols that are needed, by both of its observable events or by one")
    for listed in ([31, 2, 0], [0, 2, 1], [5, 1, 0], [0, 1, 31], [17, 2, 2], [1, 0, 2]):
        assert decoded(write_form(calls, encoded(with_symbols(P, listed)))).symbols == [0] + listed[1:]
    write(calls, encoded(P_SYMBOLS), 17, 0, 40)
    calls.say("canonical: 32 events, some of them observable: a symbol is needed by the last one alone, by the first, by one between them, by none")
    some = {0, 9, 16, 31}
    for event in (31, 0, 16, 9, None):
        listed = [30 - e // 2 if e == event else e if e in some else 31 - e for e in range(32)]
        form = write_form(calls, encoded(Automaton(0, 31, 7, 0, (), some, [(0, 31, 0), (0, 3, 0)], listed)))
        assert (event is None) == (decoded(form).symbols is None)
    calls.say("canonical: 32 events, of which the last is not observable, or all are")
    for observable, listed in ((range(31), [*range(31), 30]), (range(32), range(32)), (range(32), [*range(31), 30]), (range(32), [1, *range(1, 32)])):
        write_form(calls, encoded(Automaton(0, 31, 7, 0, (), observable, [(0, 31, 0), (0, 3, 0)], listed)))
    calls.say("canonical: symbols without an observable event")
    for listed in ([31, 0, 9], [0, 1, 2]):
        write_form(calls, encoded(Automaton(3, 2, 9, 1, {1, 3}, (), P.transitions[::-1], listed)))
    calls.say("canonical: all events observable, two of them with one symbol, or each with the other's")
    for listed in ([0, 0, 2], [1, 0, 2], [2, 1, 2], [7, 7, 2]):
        write(calls, encoded(with_symbols(OWN_NUMBERS, listed)), 16)


def canonical_sizes(calls):
    """The smallest forms, forms without padding, and the longest."""
    calls.say("canonical: the smallest encodings, without symbols and with them")
    for fourth, last in ((0, 0x00), (0, 0xC0), (1, 0xC0), (1, 0xBE), (1, 0x3E), (1, 0x7E), (1, 0xFE)):
        write_form(calls, bytes((0, 0, 0, fourth, last)))
    write(calls, bytes((0, 0, 0, 1, 0xC0)), 4, 6, 0)
    calls.say("canonical: 64 states, 32 events and no transition: there is no padding")
    for listed, size in ((None, 16), (range(32), 16), (range(31, -1, -1), 36)):
        write(calls, encoded(Automaton(63, 31, 15, 63, {0, 31, 32, 63}, range(32), (), listed)), size, size - 1, size + 1)
    calls.say("canonical: the longest encoding; with symbols that are not needed, so that the form has 20 bytes fewer; with one that is")
    write(calls, encoded(LONGEST), 2210, 2209, 4096)
    write(calls, canonical(encoded(LONGEST)), 2210)
    write(calls, encoded(with_symbols(LONGEST, range(32))), 2190, 2189, 2210)
    write(calls, encoded(with_other(LONGEST, observable={7, 31}, symbols=[7] * 31 + [30])), 2210)


# encodings that are refused, with their numbers: cut, a state or an event out of range, a padding bit, a byte behind, a transition twice
REFUSED = (
    (b"", 1),
    (P_ENCODING[:15], 1),
    (encoded(P_SYMBOLS)[:6], 1),
    (changed(Q_ENCODING, 2, 0x18), 3),
    (encoded(with_transitions(P, [(4, 3, 0)])), 3),
    (encoded(with_transitions(P, P.transitions[::-1] + [(0, 0, 4)])), 3),
    (encoded(with_transitions(P, [(0, 3, 4)])), 4),
    (encoded(with_transitions(P_SYMBOLS, P.transitions[::-1] + [(0, 31, 0)]))[:-1], 4),
    (encoded(with_transitions(P_SYMBOLS, P.transitions[::-1] + [(0, 31, 0)])), 4),
    (changed(Q_ENCODING, 8, 0x05), 5),
    (Q_ENCODING + b"\0", 5),
    (encoded(with_symbols(P, range(3))) + b"\0", 5),
    (encoded(with_repeat(P, 1, 3)), 12),
    (encoded(with_repeat(with_symbols(P, [31, 1, 2]), 0, 2))[:-1], 12),
)


def canonical_refusals(calls):
    """9, the refusals of the encoding and 10, each before the next. The output and the size stay as they were."""
    calls.say("canonical: the refusals of the encoding, with an output of enough bytes, of too few, and of none")
    for data, number in REFUSED:
        calls.put(encoding=data, size=SIZE)
        for size in (40, 3) if data else (40, 0):
            calls.put(output=lent_output(size))
            assert calls.canonical() == number
    write(calls, encoded(LONGEST)[:2209], 2210)
    write(calls, encoded(LONGEST) + b"\0", 2211, 0)
    write(calls, changed(b"\xff" * 2210, 2209, 0xFE), 2210, 2209)
    calls.say("canonical: a size of other lengths, before the refusals of the encoding and before 10")
    for data in [P_ENCODING, encoded(with_symbols(P, [9, 2, 1]))] + [data for data, _ in REFUSED[1::3]]:
        calls.put(encoding=data)
        for size, room in ((7, 40), (9, 40), (0, 3)):
            calls.put(size=resized(SIZE, size), output=lent_output(room))
            assert calls.canonical() == 9
    calls.put(encoding=P_ENCODING, output=lent_output(20))
    for size in (1, 2, 4, 16, 4096):
        calls.put(size=b"\xee" * size)
        assert calls.canonical() == 9
    calls.say("canonical: what was written stays where the next call is refused")
    write(calls, encoded(FORKED), 24)
    for data, size, number in ((Q_ENCODING[:8], 8, 1), (Q_ENCODING + b"\0", 8, 5), (Q_ENCODING, 9, 9), (encoded(CORNERS), 8, 10), (Q_ENCODING, 8, 0)):
        calls.put(encoding=data, size=resized(calls.slices["size"], size))
        assert calls.canonical() == number
    calls.say("canonical: lines that are not understood")
    for line in ("canonical 1", "canonical ", " canonical", "canonical x", "canonicals", "open canonical", "size", "size 4097", "size 8 0:100"):
        calls.misread(line)
    calls.put(size=b"")
    write(calls, P_ENCODING, 16)


def others_of(automaton):
    """Automata that differ from one in one thing: whether it counts, and the other. (Its top event is 3, and event 0 is not observable.)"""
    listed, symbols = automaton.transitions, automaton.symbols or list(range(4))
    for counts, others in (
        (True, {"top_state": automaton.top_state + 1}),
        (True, {"top_event": 4, "symbols": symbols + [0]}),
        (True, {"k": automaton.k + 1}),
        (True, {"initial": automaton.initial - 1}),
        (True, {"secret": automaton.secret | {0}}),
        (True, {"secret": automaton.secret - {automaton.top_state}}),
        (True, {"observable": automaton.observable | {0}}),
        (True, {"observable": automaton.observable - {3}}),
        (True, {"symbols": symbols[:3] + [9]}),
        (True, {"transitions": listed[:-1]}),
        (True, {"transitions": [*listed, (0, 0, 0)]}),
        (True, {"transitions": [(1, 1, 3), *listed[1:]]}),
        (True, {"transitions": [(2, 0, 3), *listed[1:]]}),
        (True, {"transitions": [(2, 1, 2), *listed[1:]]}),
        (False, {"transitions": listed[::-1]}),
        (False, {"symbols": [8] + symbols[1:]}),
        (False, {"symbols": [30] + symbols[1:], "transitions": sorted(listed)}),
    ):
        yield counts, with_other(automaton, **others)


def canonical_pairs(calls):
    """Automata that differ in one thing: other bytes where it counts, and the same where it does not."""
    for symbols in ([31, 2, 0, 3], None):
        calls.say(f"canonical: automata that differ in one thing, {'with' if symbols else 'without'} symbols")
        first = Automaton(4, 3, 2, 1, {1, 4}, {1, 2, 3}, FORKED.transitions, symbols)
        form = write_form(calls, encoded(first))
        for counts, other in others_of(first):
            data = encoded(other)
            write(calls, data, len(canonical(data)))
            assert counts == (calls.slices["output"] != form) == (meaning(data) != meaning(form))


def random_canonical(calls):
    """Random automata, each in two encodings that have one form, and damaged ones, some into an output of a few bytes."""
    calls.say("canonical: random automata, each in two encodings; and damaged ones")
    for i in range(WRITTEN):
        rng = random.Random(f"canonical {SEED} {i}")
        automaton = wide_automaton(rng) if i % 4 == 3 else random_automaton(rng)
        first, second = (encoded(spelled(rng, automaton)) for _ in range(2))
        form = canonical(first)
        write(calls, first, len(form) + rng.choice((0, 0, 1, 20)))
        write(calls, second, len(form) - rng.choice((0, 0, 0, 1)))
        assert canonical(second) == form
        write(calls, rng.choice(ENCODING_DAMAGES)(rng, spelled(rng, automaton), b"")[2:], rng.choice((250, 250, 8)))


# answers that are left open


def open_states(calls):
    """States within their limits that did not grow from a fresh one."""
    calls.say("states within their limits that did not grow from a fresh one: every answer that is allowed is `open`")
    calls.lend(P)
    lend_all(calls)
    for count, symbol, entry in ((2, 31, 0), (0, 255, 255), (2, 0, 255), (1, 1, 255)):
        calls.put(estimator=bytes([count] + [symbol] * 15) + bytes([entry]) * 128 + bytes(FURTHER_BYTES))
        for byte in (1, 2):
            calls.open("accept", byte)
    calls.put_table([0] * 64 + [1] + [0] * 1983)  # one state that takes event 1
    calls.put(header=header_of(Automaton(63, 31, 1, 0, (), {1}, ())), output=OUTPUT, release=RELEASE)
    calls.start(0)
    begun = calls.slices["enforcer"][:ESTIMATOR_BYTES]
    for notion in (0, 1):
        for count, symbol in ((3, 31), (2, 32)):
            calls.put(enforcer=begun + bytes([notion, count] + [symbol] * 16 + [200] * 16))
            calls.offer(1)
        for count, symbol in ((0, 31), (1, 31), (2, 31), (0, 32)):
            calls.put(enforcer=begun + bytes([notion, count] + [symbol] * 16 + [200] * 16))
            calls.offer(200)
            calls.open("offer", 1)
    calls.say("a state that grew under a header in which an observable event then gets another symbol")
    calls.lend(P_SYMBOLS)
    lend_all(calls)
    calls.fresh()
    calls.start(0)
    for byte in (2, 0):
        calls.accept(byte)
        calls.offer(byte)
    calls.put(header=changed(calls.slices["header"], SYMBOLS + 1, 5))
    for byte in (0, 5):
        calls.open("accept", byte)
        calls.open("offer", byte)
    calls.accept(2)
    calls.offer(2)


def random_state(rng, k):
    """An estimator within its limits that says anything, and the largest K. Past the count of its further secrets stands anything."""
    few = [set(rng.sample(range(64), rng.choice((0, 1, 2, 30, 64)))) for _ in range(16)]
    given = rng.choice((0, rng.randrange(4)))
    backs = [rng.randrange(16) if place < given else rng.randrange(256) for place in range(3)]
    places = [Secret(set(rng.sample(range(64), rng.choice((0, 1, 2, 30, 64)))), back) for back in backs]
    largest, some = max([k] + backs[:given]), rng.choice((4, 32))
    state = changed(estimator_bytes([rng.randrange(some) for _ in range(15)], few, places), SECRETS, given)
    return changed(state, 0, rng.randrange(largest + 1)), largest


def lent_automata(calls, name, count):
    """So many random automata, of which those with an observable event are lent, each with the random numbers that it came from."""
    for i in range(count):
        rng = random.Random(f"{name} {SEED} {i}")
        automaton = random_automaton(rng)
        if automaton.observable:
            calls.lend(automaton)
            yield rng, automaton


def random_open(calls):
    """The same on random automata."""
    for rng, automaton in lent_automata(calls, "open", OPEN):
        lend_all(calls)
        for _ in range(2):
            calls.put(estimator=random_state(rng, automaton.k)[0])
            calls.open("accept", rng.choice(sorted(automaton.symbol_of.values())))
            state, largest = random_state(rng, automaton.k)
            rest = [rng.randrange(2), rng.randrange(largest + 2)] + [rng.randrange(32) for _ in range(16)]
            waits = [rng.choice((0, 1, 2, 17, rng.randrange(256))) for _ in range(16)]
            calls.put(enforcer=state + bytes(rest + waits), output=resized(OUTPUT, rng.randrange(17, 20)))
            calls.open("offer", rng.choice(sorted(automaton.symbol_of.values())))


# random automata


def random_case(i):
    """An automaton and bytes to offer, among them refused ones. Every other one has a trace on which weak and strong differ."""
    rng = random.Random(f"chains {SEED} {i}")
    while True:
        automaton = random_automaton(rng)
        offered = random_offers(rng, automaton, rng.choice((2, 4, 6, 8, 12)))[:12]
        listing, differ = Listing(automaton), 0
        try:
            for byte in offered:
                if byte in automaton.symbol_of.values() and listing.accept(byte):
                    differ += listing.weak() != listing.strong()
        except TooManyRuns:
            continue
        if i % 2 == 0 or differ:
            return automaton, offered


def random_chains(calls):
    """Random automata, each with an estimator and an enforcer under either notion."""
    for i in range(RANDOM):
        automaton, offered = random_case(i)
        calls.say(f"random automaton {i}")
        decode(calls, automaton)
        observe(calls, offered)
        for notion in (0, 1):
            enforce(calls, notion, offered, b"\xee" * 17)


def releases(automaton, secrets, offered):
    """For each notion, how many symbols are released after each accepted byte; None where an enforcer does not start."""
    listing = Listing(automaton, secrets)
    rules = [rule if rule(0) else None for rule in (listing.weak_safe, listing.strong_safe)]
    accepted = (byte for byte in offered if byte in automaton.symbol_of.values() and listing.accept(byte))
    return [[rule and listing.longest(rule) for rule in rules] for _ in accepted]


def several_case(i):
    """An automaton, further secrets, and bytes to offer. Three of four tell a mistaken program by what is released."""
    rng = random.Random(f"several {SEED} {i}")
    while True:
        automaton = random_automaton(rng)
        secrets = random_secrets(rng, automaton)
        offered = random_offers(rng, automaton, rng.choice((4, 6, 8)))[:8]
        try:
            told = releases(automaton, secrets, offered)
            if i % 4 == 3 or told != releases(*mistaken(automaton, secrets)[i % 4], offered):
                return automaton, secrets, offered
        except TooManyRuns:
            continue


def random_several(calls):
    """Random automata with further secrets, each with an estimator and an enforcer under either notion."""
    for i in range(SEVERAL):
        automaton, secrets, offered = several_case(i)
        calls.say(f"random automaton {i} with further secrets")
        judge_all(calls, automaton, secrets, offered)


def misread(calls):
    """Lines that are not understood."""
    calls.say("lines that are not understood")
    for line in (
        "x",
        " decode",
        "decode ",
        "decode 1",
        "fresh 0",
        "accept",
        "accept x",
        "accept 256",
        "accept 1 2",
        "accept  1",
        "accept 99999999999999999999999999",
        "offers 1",
        "open",
        "open ",
        "open open",
        "open accept",
        "open header 1",
        "open decode",
        "open fresh",
        "open start 0",
        "open explore 1",
        "explore",
        "explore x",
        "explore -1",
        "explore 1 2",
        "explore 4294967296",
        "explore 18446744073709551617",
        "explored 1",
        "exploration",
        "exploration 4 0:100",
        "first_leak",
        "first_leak x",
        "first_leak -1",
        "first_leak 256",
        "first_leak 1 2",
        "first_leaks 1",
        "open first_leak 0",
        "events",
        "events 4097",
        "events 3 0:100",
        "place",
        "place 8 0:100",
        "header",
        "header x",
        "header 4097",
        "header 46 0",
        "header 46 0:",
        "header 46 0:g",
        "header 46 0:100",
        "header 46 0:1*",
        "header 46 0:1*4097",
        "header 46 4096:1",
        "header 46 0:1,",
        "header 46 0:1 ",
        "header 46  0:1",
        "header 46 0:100 0:1",
        "further",
        "further 28 0:100",
        "table 2048 0:11111111111111111",
        "verdicts 3",
        "released 2",
    ):
        calls.misread(line)
    for function in ("accept", "first_leak"):
        ready(calls, function)
        getattr(calls, function)(1)


# runs that excuse the chamber


def renew(calls, **slices):
    """Lends other bytes, where they are not lent yet."""
    calls.put(**{name: data for name, data in slices.items() if calls.slices[name] != data})


def listing_of(automaton, trace, secrets=()):
    """The listing of a trace."""
    listing = Listing(automaton, secrets)
    assert all(map(listing.accept, trace))
    return listing


def watch(calls, listing):
    """Lends an automaton, and its estimator after a trace."""
    calls.lend(listing.automaton)
    calls.hold(listing)


def excuse(calls, notion, number, k):
    """Asks for a run, over what no function writes: which one, where there is one alone, or none; else whether any passes, or k is too far."""
    renew(calls, output=ROOM, run=RUN)
    asked = asked_after(calls.listing("estimator"), notion, number, k)
    shown = asked is not None and (not exists(asked) or only(asked))
    return (calls.witness if shown else calls.any_witness)(notion, number, k)


def check(calls, notion, number, k, start, pairs):
    """Asks whether pairs are such a run, over a byte that is not the answer."""
    renew(calls, pairs=pairs)
    if calls.slices["valid"] == bytes([is_witness(calls.asked(notion, number, k), start, pairs)]):
        calls.put(valid=VALID)
    return calls.check_witness(notion, number, k, start)


def all_asks(listing):
    """Every notion, secret and k: the secrets that are given and one more, and k up to one more than any that is not turned away."""
    for number in range(1 + len(listing.secrets)):
        back = listing.secrets[number].k if number < len(listing.secrets) else 0
        for notion, k in itertools.product((0, 1), range(2 + min(back, len(listing.trace)))):
            yield notion, number, k


def near(rng, ask, start, pairs):
    """A run with something else in it: a byte changed, a pair more or fewer, a byte more or fewer, another start, or asked for otherwise."""
    notion, number, k = ask
    pair = bytes((rng.choice((*pairs[::2], rng.randrange(4))), rng.choice((start, *pairs[1::2]))))
    at = 2 * rng.randrange(len(pairs) // 2 + 1)
    yield ask, start, pairs[:at] + pair + pairs[at:]
    yield ask, start, pairs + pair
    yield ask, start, pairs + pairs[-1:] + b"\1"[len(pairs[-1:]) :]
    yield ask, rng.choice((start ^ 1, start + 64, rng.randrange(256))), pairs
    yield (notion, number, rng.choice((k + 1, max(k - 1, 0)))), start, pairs
    yield (1 - notion, number, k), start, pairs
    yield (notion, rng.choice((number + 1, max(number - 1, 0))), k), start, pairs
    if pairs:
        at = 2 * rng.randrange(len(pairs) // 2)
        yield ask, start, pairs[:at] + pairs[at + 2 :]
        yield ask, start, pairs[:-1]
        yield ask, start, changed(pairs, at, rng.choice((pairs[at] ^ 1, pairs[at] + 32, rng.randrange(256))))
        yield ask, start, changed(pairs, at + 1, rng.choice((pairs[at + 1] ^ 1, pairs[at + 1] + 64, start)))


def check_near(calls, rng, ask, count):
    """Two runs that pass, one of them with more steps than it needs, and so many others that are near to one of them."""
    asked = asked_after(calls.listing("estimator"), *ask)
    for often in (0.1, 0.5):
        run = random_run(rng, Ways(asked), often)
        if len(run[1]) < 60:
            assert check(calls, *ask, *run) == 1
            others = list(near(rng, ask, *run))
            for other, start, pairs in rng.sample(others, min(count, len(others))):
                check(calls, *other, start, pairs)


def witness_examples(calls):
    """Examples by hand: every notion, secret and k after each symbol of P, and after the traces of the others; and all of their runs."""
    calls.put(output=ROOM, run=RUN, pairs=b"", valid=VALID)
    calls.say("witness: P, every k before its first symbol and after each; then with symbols, after the last")
    rng = random.Random("witness")
    for automaton, *traces in ((P, *((1, 2, 1, 1)[:count] for count in range(5))), (P_SYMBOLS, (2, 0, 2, 2))):
        calls.lend(automaton)
        for trace in traces:
            observe(calls, trace)
            for ask in all_asks(calls.listing("estimator")):
                excuse(calls, *ask)
    calls.say("witness: a run is written over the last one; the next symbol as if no run was asked for")
    calls.lend(P)
    observe(calls, (1, 2, 1, 1))
    calls.put(output=bytes(range(0xA0, 0xAA)) + ROOM, run=(1, 2, 3))
    for k in (2, 1, 0, 3, 2):
        calls.witness(k % 2, 0, k)
    calls.accept(1)
    calls.witness(0, 0, 2)
    for automaton, secrets, trace, number, *_ in WITNESSES:
        calls.say(f"witness: an example by hand, secret {number}")
        listing = listing_of(automaton, trace, secrets)
        watch(calls, listing)
        for ask in all_asks(listing):
            if ask[1] in (number, len(listing.secrets)):
                excuse(calls, *ask)
                asked = asked_after(listing, *ask)
                for run in listed(Ways(asked), 3) if asked else ():
                    assert check(calls, *ask, *run) == 1
                    for other, start, pairs in rng.sample(list(near(rng, ask, *run)), 2):
                        check(calls, *other, start, pairs)


def witness_positions(calls):
    """Which positions count, where runs start, and what bytes are no run."""
    calls.say("check: under weak a position before the first symbol counts, wherever it is; under strong each, the start and those behind the last symbol")
    watch(calls, listing_of(OUT_AND_BACK, (2,)))
    for pairs in ((2, 2), (0, 1, 1, 0, 2, 2), (0, 1, 1, 0, 0, 1, 1, 0, 2, 2), (0, 1, 1, 0), (0, 1, 2, 2), (2, 2, 2, 0), ()):
        for notion in (0, 1):
            check(calls, notion, 0, 1, 0, pairs)
            check(calls, notion, 0, 0, 2, pairs)
    for k in (0, 1, 2):
        excuse(calls, 0, 0, k)
        excuse(calls, 1, 0, k)
    watch(calls, listing_of(TAIL, (1,)))
    for pairs in ((1, 1), (1, 1, 0, 2), (1, 1, 0, 2, 0, 3), (1, 1, 0, 3), (0, 2, 0, 3), (1, 1, 0, 2, 0, 2)):
        for notion in (0, 1):
            check(calls, notion, 0, 1, 0, pairs)
            check(calls, notion, 0, 0, 1, pairs[2:])
    calls.say("check: P, each start; pairs that are cut, or go on; events, states and starts out of range; no transition; the other event of a symbol")
    watch(calls, listing_of(P, (1, 2, 1, 1)))
    whole = (0, 2, 1, 3, 1, 3)
    for start in (0, 1, 2, 3, 4, 63, 64, 128, 192, 255):
        check(calls, 0, 0, 2, start, whole)
        check(calls, 1, 0, 0, start, ())
    for size in range(6):
        check(calls, 0, 0, 2, 0, whole[:size])
    for pairs in (whole + (1,), whole + (1, 3), whole + (0, 2), (0,) + whole, (1, 1, 1, 3), (2, 0, 3, 1, 3, 1), (1, 3, 1, 3)):
        check(calls, 0, 0, 2, 0, pairs)
    for at, byte in itertools.product(range(6), (32, 33, 64, 65, 66, 67, 127, 128, 131, 255)):
        check(calls, 1, 0, 2, 0, changed(bytes(whole), at, byte))
    for k in (0, 1, 2, 3, 4, 15, 16, 18, 255):
        check(calls, 0, 0, k, 0, whole)
        check(calls, 0, 0, k, 3, whole[4:])
    for number in (1, 2, 3, 4, 128, 255):
        check(calls, 0, number, 2, 0, whole)
    watch(calls, listing_of(ONE_SYMBOL, (7, 2)))
    for start, pairs in ((2, (2, 0)), (1, (2, 0)), (2, (1, 0)), (2, (0, 0)), (0, (2, 0)), (2, (7, 0))):
        check(calls, 0, 0, 1, start, pairs)
    watch(calls, listing_of(ONE_SYMBOL, (7,)))
    for pairs in ((0, 1), (1, 2), (0, 2), (1, 1), (7, 1), (7, 2)):
        for notion in (0, 1):
            check(calls, notion, 0, 1, 0, pairs)
    calls.say("check: long runs, of 1,086 pairs, one more, and 2,048, around an unobservable step; with a symbol; and the last step into a secret state")
    looping = Automaton(1, 2, 15, 1, {0}, {2}, [(1, 1, 1), (1, 2, 1), (1, 1, 0)])
    watch(calls, listing_of(looping, (2,)))
    for count in (1, 127, 128, 255, 256, MOST_PAIRS, MOST_PAIRS + 1, 2048):
        for data in (bytes([1]) * (2 * count), bytes([1]) * (2 * count - 1), bytes([1]) * (2 * count - 1) + b"\0"):
            check(calls, 0, 0, 0, 1, data)
            check(calls, 1, 0, 0, 1, data)
        data = bytes([1]) * count + bytes([1]) * (count % 2) + b"\2\1" + bytes([1]) * (2 * count - 4)
        check(calls, 1, 0, 1, 1, data[:4096])
        check(calls, 1, 0, 1, 1, changed(data[:4096], len(data[:4096]) - 2, 2))


def chain_of(top, *further, secret=(), symbols=None):
    """A chain of states, each left unobserved, by event 1, for the next, with further transitions, and K 15."""
    return Automaton(63, 3, 15, 0, secret, {2, 3}, [(q, 1, q + 1) for q in range(top)] + list(further), symbols)


def witness_long(calls):
    """The longest runs: 63 unobservable steps before each symbol, and 126 before the first one."""
    every = [(notion, 0, k) for notion in (0, 1) for k in (0, 1, 7, 14, 15, 16)]
    calls.say("witness: 62 unobservable steps before each of 15 symbols, the last of which leads to a state of its own: 945 pairs, and no other run")
    listing = listing_of(chain_of(62, (62, 2, 0), (62, 3, 63)), (2,) * 14 + (3,), (secret(15, 63), secret(15, 30), secret(14)))
    watch(calls, listing)
    renew(calls, output=ROOM, run=RUN)
    calls.witness(0, 0, 15)
    start, pairs = only(asked_after(listing, 1, 0, 15))
    assert len(pairs) == 2 * 945
    calls.say("check: it, and with a byte changed far behind, and cut by one pair")
    assert check(calls, 1, 0, 15, start, pairs) == 1 and check(calls, 1, 1, 15, start, pairs) == 0 == check(calls, 1, 2, 15, start, pairs)
    assert check(calls, 0, 1, 15, start, pairs) == 1 and check(calls, 0, 3, 15, start, pairs) == 0 == check(calls, 0, 0, 14, start, pairs)
    check(calls, 1, 0, 15, start, changed(pairs, 1300, 2))
    check(calls, 1, 0, 15, start, pairs[:-2])
    for notion, number, k in [(notion, number, k) for notion in (0, 1) for number in (1, 2, 3) for k in (0, 14, 15)]:
        asked = asked_after(listing, notion, number, k)
        assert calls.any_witness(notion, number, k) == (17 if asked is None else 0 if exists(asked) else 16)
    calls.say("witness: 63 unobservable steps before each of 15 symbols and more, of one event, or of two with one symbol")
    for symbols, further, count in ((None, (), 15), ([9] * 4, ((63, 3, 0),), 17)):
        listing = listing_of(chain_of(63, (63, 2, 0), *further, symbols=symbols), (symbols[2] if symbols else 2,) * count)
        watch(calls, listing)
        for ask in every:
            calls.any_witness(*ask)
        assert len(shortest(Ways(asked_after(listing, 0, 0, 15)))[1]) == 2 * 960
    calls.say("witness: the first position that is not secret is 63 steps away")
    listing = listing_of(chain_of(63, (63, 2, 0), secret=set(range(63))), (2,) * 16)
    watch(calls, listing)
    for ask in every:
        calls.any_witness(*ask)
    assert len(shortest(Ways(asked_after(listing, 0, 0, 15)))[1]) == 2 * 960
    calls.say("witness: it is 63 steps away, and the first symbol comes 63 steps behind it: no run has fewer than 1,023 pairs")
    ring = chain_of(63, (63, 1, 0), (62, 2, 63), secret=set(range(63)))
    for count in (15, 16):
        listing = listing_of(ring, (2,) * count)
        watch(calls, listing)
        for ask in every:
            calls.any_witness(*ask)
        assert len(shortest(Ways(asked_after(listing, 0, 0, 15)))[1]) == 2 * (1023 if count == 15 else 960)
    calls.say("witness: every run, in states and events with the largest numbers; a cycle that nobody observes")
    listing = listing_of(CORNERS, (31,) * 6, (secret(3, 60), secret(15, 61), secret(0, 60, 61)))
    watch(calls, listing)
    rng = random.Random("corners")
    for number, k in ((0, 0), (0, 1), (0, 5), (0, 6), (1, 3), (2, 4), (2, 6), (3, 0), (1, 4), (3, 1), (4, 0)):
        for notion in (0, 1):
            excuse(calls, notion, number, k)
            if exists(asked_after(listing, notion, number, k)):
                check_near(calls, rng, (notion, number, k), 1)


def witness_far(calls):
    """17: a secret that is not given, k above its own K though not above another's, k above the accepted symbols; 10, and 16, each behind the one before."""
    calls.say("witness: each secret by its own K, around the largest; and secrets that are not given")
    for automaton, secrets, trace in (
        (P, P_SECRETS, (1, 2, 1, 1)),
        (P0, (secret(3, 1), secret(1, 0)), (1, 2, 1, 1)),
        (P1, (secret(0, 3), secret(0), secret(2, 3)), (1, 1)),
        (LATER, (secret(0, 2), secret(4, 3), secret(1, 0)), (7, 3, 7, 7, 3, 7)),
        (P, (), (1,)),
        (PASSING, (secret(15, 1), secret(15)), (0, 0, 0)),
    ):
        listing = listing_of(automaton, trace, secrets)
        watch(calls, listing)
        for ask in all_asks(listing):
            calls.any_witness(*ask)
        for number, k in ((0, listing.largest), (0, listing.largest + 1), (len(secrets), 15), (len(secrets) + 1, 0), (4, 0), (255, 0), (0, 255), (0, 16)):
            excuse(calls, 0, number, k)
    calls.say("witness: what stands past the count of further secrets counts for nothing")
    watch(calls, listing_of(P, (1, 2, 1), (secret(3, 3),)))
    calls.put(estimator=calls.slices["estimator"][: SECRETS + 10] + b"\xff" * 18)
    for number, k in ((0, 2), (1, 3), (1, 2), (2, 0), (2, 255), (3, 1)):
        excuse(calls, 0, number, k)
    check(calls, 0, 1, 3, 0, (1, 1, 2, 0, 1, 1))
    check(calls, 0, 2, 0, 3, ())
    calls.say("witness: 9, 17, 10 and 16, each before the next; outputs of one byte too few, just enough, more, and none")
    listing = listing_of(P, (1, 2))
    watch(calls, listing)
    for size in (OUTPUT_BYTES - 1, 0, 17, 2, OUTPUT_BYTES - 2, OUTPUT_BYTES, OUTPUT_BYTES + 1, 4096):
        calls.put(output=b"\xee" * size, run=RUN)
        for notion, number, k, answer in ((2, 1, 3, 9), (0, 0, 3, 17), (1, 1, 0, 17), (0, 0, 1, 16), (1, 0, 2, 16), (0, 0, 2, 0)):
            small = answer in (0, 16) and size < OUTPUT_BYTES
            assert calls.any_witness(notion, number, k) == (10 if small else answer)
            if answer:
                calls.witness(notion, number, k)
    calls.put(run=RUN[:2], output=ROOM[1:])
    for notion, k in ((0, 3), (0, 0), (1, 1)):
        assert calls.witness(notion, 0, k) == 9
    watch(calls, listing_of(P, (1, 2, 1, 1)))
    for size in (OUTPUT_BYTES, OUTPUT_BYTES + 1, 4096):
        calls.put(output=b"\xee" * size, run=RUN)
        calls.witness(1, 0, 2)


def both_torn(calls):
    """Both functions on slices of which one is at fault: 9, with a k that is too far, and an output that is too small, and without."""
    for notion, number, k, output in ((0, 0, 1, ROOM), (1, 0, 3, ROOM[1:])):
        renew(calls, output=output)
        assert calls.witness(notion, number, k) == 9
        assert calls.check_witness(notion, number, k, 3) == 9


def witness_torn(calls):
    """9 by each slice and each limit."""
    calls.say("witness and check: slices of other lengths")
    watch(calls, listing_of(P, (1, 2, 1, 1)))
    calls.put(output=ROOM, run=RUN, valid=VALID, pairs=(1, 3))
    good = {name: calls.slices[name] for name in ("header", "estimator")}
    for words in (calls.table[:2047], calls.table + (0,), ()):
        calls.put_table(words)
        both_torn(calls)
    calls.put_table(table_of(P))
    for name, sizes in (("header", (45, 47, 14, 0)), ("estimator", (171, 173, 144, 0))):
        for size in sizes:
            calls.put(**{name: resized(good[name], size)})
            both_torn(calls)
        calls.put(**{name: good[name]})
    for size in (2, 4, 0, 1, 8):
        calls.put(run=resized(RUN, size), output=ROOM)
        assert calls.witness(0, 0, 1) == 9 and calls.any_witness(0, 0, 3) == 9
    for size in (0, 2, 8):
        calls.put(valid=b"\xee" * size)
        assert calls.check_witness(0, 0, 1, 3) == 9 and calls.check_witness(0, 0, 3, 3) == 9
    calls.put(run=RUN, valid=VALID)
    calls.say("witness and check: notions, and headers and estimators outside their limits")
    for notion in (2, 3, 128, 255):
        assert calls.witness(notion, 0, 1) == 9 and calls.check_witness(notion, 0, 1, 3) == 9
        assert calls.any_witness(notion, 1, 255) == 9
    for at, byte in ((0, 64), (0, 255), (1, 16), (1, 255), (1, 1), (SYMBOLS + 1, 32), (SYMBOLS + 2, 255)):
        calls.put(header=changed(good["header"], at, byte))
        both_torn(calls)
    calls.put(header=good["header"])
    for at, byte in ((0, 3), (0, 255), (1, 32), (2, 255), (SECRETS, 4), (SECRETS, 255)):
        calls.put(estimator=changed(good["estimator"], at, byte))
        both_torn(calls)
    watch(calls, listing_of(P, (1, 2, 1, 1), (secret(1, 3),)))
    held = calls.slices["estimator"]
    for byte in (16, 255):
        calls.put(estimator=changed(held, SECRETS + 9, byte))
        both_torn(calls)
    calls.say("witness and check: symbols above 31 of events that are not observable, and slices that are lent to other functions")
    calls.put(header=changed(good["header"], SYMBOLS, 255), estimator=held, output=ROOM, further=b"", judgement=b"", events=b"", place=b"")
    assert calls.witness(0, 0, 2) == 0 and check(calls, 0, 0, 2, 0, (0, 2, 1, 3, 1, 3)) == 1
    calls.put(valid=VALID, run=b"")
    assert calls.check_witness(0, 0, 1, 0) == 0
    calls.put(run=RUN, valid=b"", pairs=b"", output=ROOM)
    assert calls.witness(0, 1, 1) == 16 and calls.witness(0, 0, 1) == 0
    calls.say("witness and check: lines that are not understood")
    for line in (
        "witness", "witness ", "witness 0", "witness 0 0", "witness 0 0 ", "witness 0 0 0 0", "witness 0 0 256", "witness 256 0 0", "witness 0 256 0",
        "witness 0 0 x", "witness 0  0 0", "witness  0 0 0", "witness 0 0 0 ", " witness 0 0 0", "witness 0,0,0", "witness 0 -1 0", "witnesses 0 0 0",
        "check_witness", "check_witness 0 0 0", "check_witness 0 0 0 0 0", "check_witness 0 0 0 256", "check_witness 0 0 0 ", "any", "any ",
        "any witness", "any witness 0 0", "any witness 0 0 0 0", "any accept 1", "any check_witness 0 0 0 0", "any any witness 0 0 0",
        "open witness", "open witness 0 0", "open check_witness 0 0 0 0", "run", "run 4097", "run 3 0:100", "pairs", "pairs 4097", "pairs 3 0:100",
        "valid", "valid 1 0:100",
    ):
        calls.misread(line)


def witness_states(calls):
    """States that did not grow: a run is only known to pass, and what passes goes by what the state remembers."""
    calls.say("witness and check: states that did not grow: a symbol that no event has, a set that is empty, states that nothing leads to")
    calls.put(output=ROOM, run=RUN, valid=VALID)
    calls.lend(P)
    for symbols, entries in (
        ((31, 1), ({3}, {3}, {0})), ((1, 31), ({3}, {3}, {0})), ((0, 1), ({2}, {0}, {1})), ((1, 1), ({3}, set(), {0})), ((1, 1), ((), (), ())),
        ((2, 2), ({0}, {1}, {0})), ((1, 2), (range(64),) * 3), ((2,), ({1}, {5, 1, 63})), ((1, 1), ({0}, {2}, {3, 2})),
    ):
        calls.put(estimator=estimator_bytes(symbols, entries))
        for notion, k in itertools.product((0, 1), range(len(symbols) + 2)):
            calls.open_witness(notion, 0, k)
        calls.open_witness(0, 1, 0)
        for k, start, pairs in (
            (0, 3, ()), (0, 63, ()), (0, 2, ()), (1, 3, (1, 3)), (1, 1, (2, 0)), (1, 2, (1, 3)), (2, 0, (0, 2, 1, 3, 1, 3)), (2, 1, (2, 0, 1, 1)),
        ):
            check(calls, 0, 0, k, start, pairs)
        check(calls, 1, 0, 0, 1, ())
    calls.say("witness and check: the same, random ones")
    for rng, automaton in lent_automata(calls, "ungrown", UNGROWN):
        shown = sorted(automaton.symbol_of.values())
        state, _ = random_state(rng, automaton.k)
        if rng.random() < 0.7:  # symbols that events have
            state = state[:1] + bytes(rng.choice(shown) for _ in range(15)) + state[16:]
        calls.put(estimator=state)
        for _ in range(3):
            ask = rng.randrange(2), rng.randrange(1 + state[SECRETS]), rng.randrange(1 + min(4, state[0]))
            calls.open_witness(*ask)
            asked = calls.asked(*ask)
            run = random_run(rng, Ways(asked), 0.3) if exists(asked) else (rng.randrange(64), b"")
            if len(run[1]) < 40:
                check(calls, *ask, *run)
                for other, start, pairs in rng.sample(list(near(rng, ask, *run)), 3):
                    check(calls, *other, start, pairs)


def random_watch(rng):
    """The listing of a random trace, some with further secrets."""
    while True:
        automaton = random_automaton(rng)
        listing = Listing(automaton, random_secrets(rng, automaton) if rng.random() < 0.7 else (), 200)
        try:
            assert all(map(listing.accept, random_trace(rng, automaton, rng.choice((0, 1, 2, 3, 4, 6)))))
            return listing
        except TooManyRuns:
            continue


def random_witnesses(calls):
    """Random automata, some with further secrets: for each mistake one that tells a mistaken program by some runs; and others with every k, and with runs
    and what is near to them."""
    calls.say("witness and check: random automata, each of which tells a mistaken program")
    for name, mistake in (BY_WAYS | BY_ASKING).items():
        rng, found = random.Random(f"witness {SEED} {name}"), []
        while len(found) < 2:
            listing = random_watch(rng)
            asks = [*all_asks(listing), (0, 0, 16), (1, 4, 0), (0, 255, 0), (1, 0, 16 + rng.randrange(2))]
            found = [(ask, run) for ask in asks for run in telling(mistake, listing, *ask) if len(run[1]) < 40]
        watch(calls, listing)
        chosen = rng.sample(found, min(4, len(found)))
        for ask in dict(chosen):
            excuse(calls, *ask)
        for ask, run in chosen:
            check(calls, *ask, *run)
    calls.say("witness and check: random automata, every k, and what is near to runs")
    for i in range(EXCUSED):
        rng = random.Random(f"excused {SEED} {i}")
        listing = random_watch(rng)
        while len(listing.trace) < i % 4:
            listing = random_watch(rng)
        watch(calls, listing)
        asks = list(all_asks(listing))
        for ask in rng.sample(asks, min(16, len(asks))):
            excuse(calls, *ask)
        there = [ask for ask in asks if exists(asked_after(listing, *ask))]
        for ask in rng.sample(there, min(3, len(there))):
            check_near(calls, rng, ask, 6)


# the parts that write and check runs
WITNESS = witness_examples, witness_positions, witness_long, witness_far, witness_torn, witness_states, random_witnesses

# the parts that write canonical forms
CANONICAL = canonical_orders, canonical_symbols, canonical_sizes, canonical_refusals, canonical_pairs, random_canonical


def stored():
    """The input and the output."""
    calls = Calls()
    for part in (
        decodings,
        symbol_decodings,
        decoding_sizes,
        repeats,
        verifiers,
        enforcers,
        symbols,
        sizes,
        refused_everywhere,
        wrong_sizes,
        outside_limits,
        header_symbols,
        damaged_states,
        several,
        secret_refusals,
        secret_limits,
        explorations,
        exploration_refusals,
        first_leaks,
        search_refusals,
        open_states,
        misread,
        random_decodings,
        random_open,
        random_chains,
        random_several,
        random_explorations,
        random_first_leaks,
        *CANONICAL,
        *WITNESS,
    ):
        part(calls)
    return {"stdin": "".join(line + "\n" for line in calls.lines).encode(), "stdout": "".join(line + "\n" for line in calls.printed).encode()}


if __name__ == "__main__":
    sys.exit(store(FOLDER, stored()))
