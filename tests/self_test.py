"""Tests of the lister itself: `python3 tests/self_test.py`.

01's examples with its answers, and others worked out by hand; the merged listing of `runs` against one in which nothing is merged or left out: each
run as its list of transitions; automata with symbols against automata without, whose events are the symbols; and further secrets (S-6) against
answers worked out by hand, against runs that are listed one by one as their states, and against automata whose own secret they are; explorations
(S-7) against what was worked out by hand, against every trace up to a length, and against how long the last symbols of traces are held; first leaks
(S-8) against what was worked out by hand, against the lines of logs, and against runs that are listed one by one; canonical forms (S-9) against what
was written out by hand, against what encodings say, of all small ones and of random ones with each bit turned over; and the stored calls that write
them against mistaken writers; and runs that excuse the chamber (S-10) against what was worked out by hand, against whole runs that are listed one by one,
and against the verdicts, both ways; and the stored calls that write and check them against mistaken programs.
"""

import itertools
import pathlib
import random
import sys

from calls import Calls, elements
from canonical import canonical, canonical_output, meaning, written
from examples import (
    ENCODINGS, ESTIMATES, EXAMPLES, EXPLORATIONS, FIRST_LEAKS, FORMS, OPENINGS, P, P_ENCODING, P_SECRETS, P_SYMBOLS, Q, Q_ENCODING, SEVERAL, T,
    WITNESSES, by_bits, hops, rings, secret, subsets,
)
from explorations import Exploration, explored, reached, waits_of
from first_leaks import first_leak, leak_output
from gateway_calls import CANONICAL, WITNESS
from generate import (
    ENCODING_DAMAGES, large_automaton, many_transitions, random_automaton, random_byte, random_log, random_offers, random_secrets, random_trace,
    spelled, wide_automaton, with_length, with_repeat, with_symbols, with_transitions,
)
from logs import Refused, decoded, encoded, output, refused_line, steps
from mistaken_witnesses import MISTAKEN, Case, told as told_witnesses
from mistaken_writers import MISTAKEN_WRITERS, as_listed, told
from runs import Automaton, Listing, TooManyRuns
from saved import (
    ESTIMATOR_BYTES, HEADER_BYTES, automaton_of, exploration_bytes, given_of, grown_enforcer, grown_estimator, header_of, judgement_bytes,
    place_bytes, run_bytes, safe_of, secrets_bytes, size_bytes, table_of, wait,
)
from witnesses import Ways, asked_after, exists, is_witness, listed, only, random_run, witness_output, wrong_output


def test_examples():
    """01's examples and openings."""
    assert encoded(P) == P_ENCODING and encoded(Q) == Q_ENCODING
    for automaton, offered, expected in EXAMPLES:
        assert output(with_length(encoded(automaton), bytes(offered))) == expected, expected
    for encoding, number in ENCODINGS:
        assert output(with_length(encoding, b"\x01")) == f"refused {number}\n", number
    for automaton, weak, strong, size, weak_safe, strong_safe in OPENINGS:
        listing = Listing(automaton)
        assert (listing.weak(), listing.strong(), listing.size()) == (weak, strong, size)
        assert (listing.weak_safe(0), listing.strong_safe(0)) == (weak_safe, strong_safe)


def test_sizes():
    """S-5, by hand: P's four events get 2, 2, 2, 1, and each listed estimate is the states in which listed runs end, whose number is the size."""
    assert [line.split()[4] for line in output(with_length(P_ENCODING, bytes((1, 2, 1, 1)))).splitlines()[:4]] == ["2", "2", "2", "1"]
    for automaton, trace, estimates in ESTIMATES:
        listing = Listing(automaton)
        assert len(estimates) == len(trace) + 1
        for symbol, estimate in zip((None,) + trace, estimates):
            assert symbol is None or listing.accept(symbol)
            assert {end for end, _ in listing.compatible[len(listing.trace)]} == estimate, (trace, symbol)
            assert listing.size() == len(estimate)


def several_lines(automaton, further, trace):
    """The lines of a trace and a weak enforcer, as a log has them, with the verdicts of each secret."""
    listing, lines, released = Listing(automaton, further), [], 0
    for symbol in trace:
        assert listing.accept(symbol)
        verdicts = " ".join(f"{steps(listing.weak(number))} {steps(listing.strong(number))}" for number in range(1 + len(further)))
        before, released = released, listing.longest(listing.weak_safe)
        going = ",".join(map(str, listing.trace[before:released])) or "-"
        lines.append(f"{len(listing.trace)} {symbol} {verdicts} {listing.size()} {going}\n")
    accepted = len(listing.trace)
    return "".join(lines) + f"end {accepted} {released} {accepted - released}\n"


def leak_line(notion, further, offered):
    """The line of the first leak of offered bytes on P."""
    place = first_leak(Listing(P, further), notion, offered)
    said = "no leak" if place is None else f"first leak at {place}"
    return f"{('weak', 'strong')[notion]}, {len(further)} further, offered {' '.join(map(str, offered))}: {said}\n"


def leak_lines():
    """Those of the example in C: offered bytes that leak, that do not, and of which none is accepted."""
    one, passed = (secret(1, 3),), (secret(1, 0),)
    leaking, drifting = (2, 1, 200, 0, 2, 1), (0, 1, 200, 1, 2, 1, 1)
    asked = [(notion, further, leaking) for further in ((), passed) for notion in (0, 1)] + [(0, (), drifting), (1, (), drifting), (0, one, drifting)]
    return "".join(leak_line(*call) for call in asked + [(1, passed, (2, 0, 200))])


def explored_line(k, further, budget):
    """The line of an exploration of P, with this K in place of its own."""
    found = explored(Listing(with_symbols(P, None, k), further), budget)
    said = "refused 15" if found is None else f"{found.count} configurations, waits {found.weak} {found.strong}"
    return f"K {k}, {len(further)} further, budget {budget}: {said}\n"


def explored_lines():
    """Those of the example in C: budgets that are enough, one too small, larger than the largest, and 0."""
    one, passed = (secret(1, 3),), (secret(1, 0),)
    asked = (2, (), 256), (2, (), 7), (2, (), 6), (2, one, 256), (0, (), 300), (0, passed, 256), (15, (), 82), (15, (), 81), (2, one, 0)
    return "".join(explored_line(*call) for call in asked)


def form_lines():
    """Those of the example in C: P with its transitions in another order and symbols that are not needed, into an output with space and one without."""
    shuffled = by_bits(
        "000011 00010 0010 000000 0000000101 1", "0100 011", "00111 00001 00010",
        "000011 00001 000011", "000001 00010 000000", "000000 00001 000001", "000010 00001 000011", "000000 00000 000010",
    )
    form = canonical(shuffled)
    assert form == P_ENCODING
    said = f"form of {len(shuffled)} bytes, output"
    return f"{said} 2210: {len(form)} bytes, {form.hex(' ')}\n{said} {len(form) - 1}: refused 10\n"


def shown_witness(listing, notion, number, k):
    """The line of a witness of the example in C, where there is at most one: its start and steps, whether it passes, with how many other starts it does,
    and whether it does without its last byte."""
    asked = asked_after(listing, notion, number, k)
    said = f"{('weak', 'strong')[notion]}, secret {number}, k {k}: "
    if asked is None or not exists(asked):
        return f"{said}refused {17 if asked is None else 16}\n"
    start, pairs = only(asked)
    words = [f"from {start}"] + [f"{event},{state}" for event, state in zip(pairs[::2], pairs[1::2])]
    passing = [other for other in range(256) if is_witness(asked, other, pairs)]
    short = f", without the last byte {'' if is_witness(asked, start, pairs[:-1]) else 'not '}valid" if pairs else ""
    return f"{said}{' '.join(words)}: {'' if start in passing else 'not '}valid, {len(set(passing) - {start})} with other starts{short}\n"


def witness_lines():
    """Those of the example in C: on P after 1 2 1 1, with a further secret, each by its own K, and one that is not given."""
    listing = Listing(P, (secret(1, 3),))
    assert all(map(listing.accept, (1, 2, 1, 1)))
    asked = (0, 0, 0), (0, 0, 1), (0, 0, 2), (1, 0, 2), (0, 0, 3), (0, 1, 0), (0, 1, 1), (1, 1, 2), (0, 2, 0)
    return "".join(shown_witness(listing, *call) for call in asked)


def test_programs():
    """The stored runs of the log program, 01's listing and 02's idle log with S-5's column: the lister gives them, and they are among the answers
    that were written by hand. Those of the programs that look for a first leak, with each notion's place by hand, of the one that writes a
    canonical form, bit by bit, and of the one that prints runs that excuse the chamber, by hand. The documents and the example in C have the same as the
    log program, and the example goes on with a further secret, first leaks, explorations, canonical forms and witnesses."""
    top = pathlib.Path(__file__).resolve().parent.parent
    stored = {}
    for name in ("opacity_log", "idle_log"):
        folder = top / "crates" / name
        stored[name] = (folder / "stdout").read_text("ascii")
        assert output((folder / "stdin").read_bytes()) == stored[name], name
    assert stored["opacity_log"] == EXAMPLES[0][2]
    assert [stored["idle_log"]] == [expected for automaton, offered, expected in EXAMPLES if automaton is T and not offered]
    for name, own, printed in (("first_leak", 0, ["5\n", "3\n"]), ("first_strong_leak", 1, ["5\n", "3\n"])):
        folder = top / "crates" / name
        assert [leak_output((folder / "stdin").read_bytes(), notion) for notion in (0, 1)] == printed, name
        assert (folder / "stdout").read_text("ascii") == printed[own], name
    folder = top / "crates" / "canonical_encoding"
    rising = "000000 00000 000010", "000000 00001 000001", "000000 00001 000011", "000001 00010 000000", "000010 00001 000011", "000011 00001 000011"
    form = by_bits("000011 00010 0010 000000 0000000110 1", "0100 011", "00000 00001 00000", *rising)
    assert canonical_output((folder / "stdin").read_bytes()) == (folder / "stdout").read_bytes() == form != (folder / "stdin").read_bytes()
    folder = top / "crates" / "witness_log"
    weak = "weak 0 5", "weak 1 3 0,2 2,5", "weak 2 no alibi", "weak 3 5 3,0 1,3 0,2 2,5", "weak 4 0 4,2 2,5 3,0 1,3 0,2 2,5"
    strong = "strong 0 5", "strong 1 3 0,2 2,5", "strong 2 no alibi", "strong 3 no alibi", "strong 4 no alibi"
    text = "".join(f"{line}\n" for line in (*weak, *strong, "end 6"))
    assert witness_output((folder / "stdin").read_bytes()) == (folder / "stdout").read_text("ascii") == text
    several = several_lines(P, (secret(1, 3),), (1, 2, 1, 1))
    listing = stored["opacity_log"] + several + leak_lines() + explored_lines() + form_lines() + witness_lines()
    assert (top / "c" / "listing.txt").read_text("ascii") == listing
    further = next(line for line in (top / "docs/FORMATS.md").read_text("utf-8").splitlines() if line.startswith("    02  02 00"))
    assert bytes.fromhex(further) == secrets_bytes([secret(2, 1, 63), secret(15)])
    for name in ("README.md", "docs/FORMATS.md"):
        indented = "".join(f"    {line}\n" for line in stored["opacity_log"].splitlines())
        text = (top / name).read_text("utf-8")
        assert indented in text and stored["idle_log"].splitlines()[0] in text, name


def test_repeats():
    """S-1, by hand: P with any of its transitions a second time, anywhere behind the first, gets 12; behind a transition out of range its number."""
    for first in range(5):
        for distance in range(1, 6 - first):
            assert output(with_length(encoded(with_repeat(P, first, distance)), b"\x01")) == "refused 12\n", (first, distance)
    two = P.transitions[:2]
    for transitions, number in ((two + two[:1] + [(3, 3, 3)], 12), (two + [(3, 3, 3)] + two[:1], 4), (two + [(3, 2, 4)] + two[:1], 3)):
        assert output(with_length(encoded(with_transitions(P, transitions)), b"\x01")) == f"refused {number}\n", number


def refusal_of(encoding):
    """The number of the refusal that an encoding gets, or 0."""
    try:
        decoded(encoding)
    except Refused as refused:
        return refused.args[0]
    return 0


def test_symbols():
    """S-2, by hand: the fields of an encoding with symbols, where it is cut, the longest one, and the header."""
    fixed = "000011" + "00010" + "0010" + "000000" + "0000000101" + "1"
    sets, symbols = "0100" + "011", "11111" + "00010" + "00000"
    transitions = "00000000000000010" + "00000000001000001" + "00000100010000000" + "00001000001000011" + "00001100001000011"
    bits = fixed + sets + symbols + transitions
    assert len(bits) == 139
    encoding = int(bits + "00000", 2).to_bytes(18, "big")
    assert encoded(P_SYMBOLS) == encoding
    again = decoded(encoding)
    assert again.symbols == [31, 2, 0] and again.symbol_of == {1: 2, 2: 0} and again.transitions == P.transitions
    for size in range(18):
        assert refusal_of(encoding[:size]) == 1, size
    assert refusal_of(encoding[:17] + b"\x61") == 5 and refusal_of(encoding + b"\x00") == 5
    # the initial state's own check comes before the symbols, and those of the transitions behind them
    strays = with_transitions(P_SYMBOLS, [(0, 3, 0)], 4), with_transitions(P_SYMBOLS, [(0, 3, 4)]), with_transitions(P_SYMBOLS, [(4, 3, 0)])
    assert [refusal_of(encoded(stray)[:5]) for stray in strays] == [3, 1, 1]
    assert [refusal_of(encoded(stray)) for stray in strays] == [3, 4, 3]
    longest = encoded(Automaton(63, 31, 15, 63, range(64), range(32), many_transitions(random.Random("long"), 1023), range(31, -1, -1)))
    assert len(longest) == 2210
    assert [refusal_of(data) for data in (longest, longest[:2209], longest + b"\x00")] == [0, 1, 5]
    assert elements(header_of(P_SYMBOLS)) == "46 1:2*2 10:6 15:2" and elements(header_of(P)) == "46 1:2*2 10:6 15:1,2"
    odd = header_of(P_SYMBOLS)[:14] + b"\xff\x02\x00" + b"\xff" * 29
    assert automaton_of(table_of(P_SYMBOLS), odd).symbol_of == {1: 2, 2: 0}


def test_saved():
    """P after 1 2, by hand. Right after 1 2 a run is in 0, right after 1 in 1 or 3, and it starts in 0; 2 is pending and waits for two more. The
    same with symbols; and with further secrets, of which {1} with K 15 lets it wait for 15 more."""
    listing = Listing(P)
    assert listing.accept(1) and listing.accept(2)
    assert elements(grown_estimator(listing)) == "172 0:2*2,1 16:1 24:a 32:1"
    assert judgement_bytes(listing) == bytes((1, 1, 255, 255, 255, 255, 255, 255, 2))
    assert elements(grown_enforcer(listing, 0)) == "206 0:2*2,1 16:1 24:a 32:1 173:1,2 190:2"
    assert elements(grown_enforcer(listing, 1)) == "206 0:2*2,1 16:1 24:a 32:1 172:1*2,2 190:2"
    listing = Listing(P_SYMBOLS)
    assert listing.accept(2) and listing.accept(0)
    assert elements(grown_enforcer(listing, 0)) == "206 0:2 2:2 16:1 24:a 32:1 173:1 190:2"
    listing = Listing(P, P_SECRETS)
    assert listing.accept(1) and listing.accept(2)
    assert elements(grown_estimator(listing)) == "172 0:2*2,1 16:1 24:a 32:1 144:3,8 154:2 162:f,2"
    assert judgement_bytes(listing) == bytes((1, 1, 255, 255, 1, 1, 255, 255, 2))
    assert elements(grown_enforcer(listing, 0)) == "206 0:2*2,1 16:1 24:a 32:1 144:3,8 154:2 162:f,2 173:1,2 190:f"
    assert elements(secrets_bytes([secret(15, 63)])) == "28 0:1 8:80,f" and given_of(secrets_bytes([secret(15, 63)])) == [secret(15, 63)]


def test_several():
    """S-6, by hand: the verdicts of each secret by its own K, and what is safe for every one."""
    for automaton, further, trace, verdicts, released in SEVERAL:
        listing = Listing(automaton, further)
        starts = listing.weak_safe(0), listing.strong_safe(0)
        for symbol, told, counts in zip((None,) + trace, verdicts, ((0, 0),) + released):
            assert symbol is None or listing.accept(symbol)
            pairs = [(listing.weak(number), listing.strong(number)) for number in range(1 + len(further))]
            assert " ".join("".join(map(steps, pair)) for pair in pairs) == told, (trace, symbol)
            longest = [listing.longest(safe) if start else None for safe, start in zip((listing.weak_safe, listing.strong_safe), starts)]
            assert symbol is None or longest == list(counts), (trace, symbol)
        assert len(verdicts) == len(trace) + 1 == len(released) + 1


def every_run(automaton, trace, bound):
    """Every run that is compatible with the trace and has at most `bound` unobservable transitions between two observations, one by one."""
    pending = [((), automaton.initial, 0, 0)]
    while pending:
        run, at, count, unobserved = pending.pop()
        if count == len(trace):
            yield run
        for event, target in automaton.leaving.get(at, ()):
            if event not in automaton.observable:
                if unobserved < bound:
                    pending.append((run + ((event, target),), target, count, unobserved + 1))
            elif count < len(trace) and (event if automaton.symbols is None else automaton.symbols[event]) == trace[count]:
                pending.append((run + ((event, target),), target, count + 1, 0))


def states_of(automaton, run):
    """The positions of a run: count and state."""
    count, positions = 0, [(0, automaton.initial)]
    for event, target in run:
        count += event in automaton.observable
        positions.append((count, target))
    return positions


def facts(automaton, trace, most):
    """End and positions of every run, and of each run once more with a bound that is two higher; None where there are too many runs."""
    found, further = set(), set()
    for bound, into in ((automaton.bound(), found), (automaton.bound() + 2, further)):
        for i, run in enumerate(every_run(automaton, trace, bound)):
            if i == most:
                return None
            end = run[-1][1] if run else automaton.initial
            kept = frozenset((count, (q in automaton.secret,)) for count, q in states_of(automaton, run) if len(trace) - automaton.k <= count)
            into.add((end, kept))
    return found, further


def entered(automaton, trace):
    """Where the runs that end with their last observable event, or are empty, end."""
    if not trace:
        return {automaton.initial}
    return {run[-1][1] for run in every_run(automaton, trace, automaton.bound()) if run[-1][0] in automaton.observable}


def ends(automaton, trace):
    """Where the runs end that have at most s - 1 unobservable transitions between two observations, half the bound: enough for each state."""
    return {run[-1][1] if run else automaton.initial for run in every_run(automaton, trace, automaton.bound() // 2)}


def test_merging(count, seed):
    """The merged runs are those that are listed one by one; the estimate size is the number of states in which these end; neither a verdict nor
    the estimate size changes with a higher bound."""
    compared = 0
    for i in range(count):
        rng = random.Random(f"{seed} {i}")
        automaton = random_automaton(rng)
        listing = Listing(automaton)
        try:
            trace = [symbol for symbol in random_trace(rng, automaton, 3) if listing.accept(symbol)]
        except TooManyRuns:
            continue
        both = facts(automaton, trace, 20000)
        if both is None:
            continue
        compared += 1
        assert listing.compatible[len(trace)] == both[0], (seed, i)
        assert listing.entered[len(trace)] == entered(automaton, trace), (seed, i)
        assert listing.size() == len(ends(automaton, trace)), (seed, i)
        answers = listing.size(), listing.weak(), listing.strong(), listing.weak_safe(len(trace)), listing.strong_safe(len(trace))
        listing.compatible[len(trace)] = both[1]
        again = listing.size(), listing.weak(), listing.strong(), listing.weak_safe(len(trace)), listing.strong_safe(len(trace))
        assert answers == again, (seed, i)
    return compared


def judged(listing):
    """Verdicts, the estimate size, and which prefixes are safe; shorter ones than these always are."""
    n = len(listing.trace)
    lengths = range(max(0, n - listing.automaton.k), n + 1)
    return listing.weak(), listing.strong(), listing.size(), [(listing.weak_safe(length), listing.strong_safe(length)) for length in lengths]


def answer(listing, byte):
    """The refusal that an offered byte gets, or 0."""
    if byte not in listing.automaton.symbol_of.values():
        return 6
    return 0 if listing.accept(byte) else 7


def same(listing, other, translation, offered):
    """How many bytes two listings accept. They refuse the same, and say the same after each, where the other is offered what a byte is translated
    to, and 255 where there is nothing."""
    for byte in offered:
        assert answer(listing, byte) == answer(other, translation.get(byte, 255))
        assert judged(listing) == judged(other) and listing.entered == other.entered
    return len(listing.trace)


def different(rng, automaton):
    """The automaton with symbols of which no two observable events share one; the others have any."""
    symbols = rng.sample(range(32), automaton.top_event + 1)
    return with_symbols(automaton, [n if e in automaton.observable else rng.randrange(32) for e, n in enumerate(symbols)])


def renamed(automaton):
    """Without symbols: each observable event is called by its symbol, and the unobservable ones by one number that is no symbol. None where there is
    no such number."""
    unused = sorted(set(range(32)) - set(automaton.symbol_of.values()))
    if not unused:
        return None
    transitions = {(source, automaton.symbol_of.get(event, unused[0]), target) for source, event, target in automaton.transitions}
    shown = set(automaton.symbol_of.values())
    return Automaton(automaton.top_state, 31, automaton.k, automaton.initial, automaton.secret, shown, transitions)


def test_meaning(count, seed):
    """S-2's sentence: where no two observable events share a symbol, all is as in the automaton without symbols, over the events that have them. And
    where they share some, all is as in the automaton whose events are the symbols."""
    accepted = [0, 0]
    for i in range(count):
        rng = random.Random(f"meaning {seed} {i}")
        shared = random_automaton(rng)
        separate = different(rng, shared)
        inverse = {symbol: event for event, symbol in separate.symbol_of.items()}
        assert len(inverse) == len(separate.observable)
        plain = renamed(shared)
        try:
            offered = random_offers(rng, separate, 6)
            accepted[0] += same(Listing(separate), Listing(with_symbols(separate, None)), inverse, offered)
            if plain is not None:
                offered = random_offers(rng, shared, 6)
                accepted[1] += same(Listing(shared), Listing(plain), {symbol: symbol for symbol in plain.observable}, offered)
        except TooManyRuns:
            continue
    return accepted


def verdicts_of(runs, states, k, n):
    """Both verdicts over listed runs, each a list of counts and states, as 01 words them."""
    weak = [l for l in range(min(k, n) + 1) if all(q in states for run in runs for count, q in run if count == n - l)]
    strong = [l for l in range(min(k, n) + 1) if all(any(q in states and n - l <= count for count, q in run) for run in runs)]
    return min(weak, default=None), min(strong, default=None)


def safe_by(runs, states, k, n, r):
    """Whether the first r symbols of n are safe, weak and strong, over the runs that are compatible with them, as 01 words it."""
    weak = not any(all(q in states for run in runs for count, q in run if count == j) for j in range(r + 1) if n - j <= k)
    strong = k < n - r or any(not any(q in states and n - count <= k for count, q in run) for run in runs)
    return weak, strong


def longest_by(runs_by, given, n):
    """For each notion the length of the longest prefix that is safe for every secret, or None: `runs_by` has the runs of each prefix."""
    safe = [[safe_by(runs_by[r], states, k, n, r) for states, k in given] for r in range(n + 1)]
    return [max((r for r in range(n + 1) if all(rules[notion] for rules in safe[r])), default=None) for notion in (0, 1)]


def runs_of(automaton, trace, most):
    """The runs that are compatible with a trace, each a list of counts and states; None where there are too many."""
    runs = []
    for run in every_run(automaton, trace, automaton.bound()):
        runs.append(states_of(automaton, run))
        if len(runs) == most:
            return None
    return runs


def listed_runs(automaton, trace, most):
    """The runs of each prefix of a trace; None where there are too many."""
    runs_by = [runs_of(automaton, trace[:r], most) for r in range(len(trace) + 1)]
    return None if None in runs_by else runs_by


def with_further(name, count):
    """Random automata with further secrets, each with its number and with what chooses on."""
    for i in range(count):
        rng = random.Random(f"{name} {i}")
        automaton = random_automaton(rng)
        yield i, rng, automaton, random_secrets(rng, automaton)


def test_secrets(count, seed):
    """Verdicts of several secrets, and the longest prefix that is safe for every one, against runs that are listed one by one."""
    compared = 0
    for i, rng, automaton, further in with_further(f"secrets {seed}", count):
        listing = Listing(automaton, further, 20000)
        trace = random_trace(rng, automaton, rng.choice((2, 3, 4, 5)))
        runs_by = listed_runs(automaton, trace, 4000)
        if runs_by is None:
            continue
        compared += 1
        for n in range(len(trace) + 1):
            assert n == 0 or listing.accept(trace[n - 1])
            for number, (states, k) in enumerate(((automaton.secret, automaton.k),) + further):
                assert (listing.weak(number), listing.strong(number)) == verdicts_of(runs_by[n], states, k, n), (seed, i)
            longest = longest_by(runs_by, [(automaton.secret, automaton.k), *further], n)
            for found, safe in zip(longest, (listing.weak_safe, listing.strong_safe)):
                assert found == next((r for r in range(n, -1, -1) if safe(r)), None), (seed, i)
    return compared


def test_apart(count, seed):
    """Each secret is judged as if it were the automaton's own, with its K, and a prefix is safe if it is safe for each."""
    compared = 0
    for i, rng, automaton, further in with_further(f"apart {seed}", count):
        tops = automaton.top_state, automaton.top_event
        rest = automaton.observable, automaton.transitions, automaton.symbols
        try:
            together = Listing(automaton, further, 300)
            apart = [Listing(Automaton(*tops, k, automaton.initial, states, *rest)) for states, k in together.secrets]
            for symbol in random_trace(rng, automaton, 20):
                for listing in (together, *apart):
                    assert listing.accept(symbol)
                n = len(together.trace)
                for number, alone in enumerate(apart):
                    assert (together.weak(number), together.strong(number)) == (alone.weak(), alone.strong()), (seed, i)
                    assert together.size() == alone.size() and together.entered == alone.entered
                for r in range(max(0, n - together.largest), n + 1):
                    assert together.weak_safe(r) == all(alone.weak_safe(r) for alone in apart), (seed, i)
                    assert together.strong_safe(r) == all(alone.strong_safe(r) for alone in apart), (seed, i)
                compared += 1
        except TooManyRuns:
            continue
    return compared


def test_explorations():
    """S-7, by hand: what explorations find, with budgets around it; and the bytes of one."""
    for automaton, k, further, *found in EXPLORATIONS:
        opening = Listing(with_symbols(automaton, automaton.symbols, k), further)
        expected = None if found == [None] else Exploration(*found)
        budgets = (256, 257, 65535, 4294967295) + (() if expected is None else (found[0], found[0] + 1))
        assert [explored(opening, budget) for budget in budgets] == [expected] * len(budgets), (automaton.transitions, k, found)
        spent = (0, 255) if expected is None else (0, found[0] - 1)
        assert [explored(opening, budget) for budget in spent] == [None, None], (automaton.transitions, k, found)
    for automaton, count in ((rings(2, 15), 257), (rings(3, 14), 257), (rings(17, 0), 257), (subsets(2), 257), (hops(0), 257)):
        assert len(reached(Listing(automaton), 1000)) == count
    assert exploration_bytes(Exploration(256, 16, 2)) == bytes((0, 1, 16, 2)) and exploration_bytes(Exploration(255, 0, 1)) == bytes((255, 0, 0, 1))


def all_traces(opening, most):
    """A listing for every trace up to a length such that there are at most so many, and that length. No trace is left out for what it leads to."""
    symbols = sorted(set(opening.automaton.symbol_of.values()))
    listings, latest, length = [opening], [opening], 0
    while latest and length < 40:
        latest = list(filter(None, (listing.longer(symbol) for listing in latest for symbol in symbols)))
        if most < len(listings) + len(latest):
            break
        listings, length = listings + latest, length + 1
    return listings, length


def said(listing):
    """What the trace of a listing leads to, and the largest waits after it: S-7's words once more."""
    trace, n = listing.trace, len(listing.trace)
    first = max(0, n - max(secret.k for secret in listing.secrets))
    sets = [sorted(listing.entered[j]) for j in range(first, n + 1)]
    verdicts = [(secret.k, listing.weak(i), listing.strong(i)) for i, secret in enumerate(listing.secrets)]
    waits = [max([0] + [k + 1 - pair[notion] for k, *pair in verdicts if pair[notion] is not None]) for notion in (0, 1)]
    return (str(trace[first:]), str(sets)), waits


def test_configurations(count, seed):
    """Explorations against every trace up to a length: the same number of configurations and the same waits, where some of the traces are longer than
    those by which all were found; elsewhere no more of them. Where the budget is spent, and the traces are enough, more than the budget."""
    compared = [0, 0, 0]
    for i, rng, automaton, further in with_further(f"configurations {seed}", count):
        few = with_symbols(automaton, automaton.symbols, rng.choice((0, 1, 2, 3)))
        opening = Listing(few, rng.choice(((), further, tuple(given._replace(k=min(given.k, 2)) for given in further))), 100)
        budget = rng.choice((5, 20, 256))
        try:
            listings = reached(opening, budget)
            traces, length = all_traces(opening, 600)
        except TooManyRuns:
            continue
        found = [said(listing) for listing in traces]
        different = {key for key, _ in found}
        if listings is None:
            compared[2] += budget < len(different)
        elif len(listings[-1].trace) < length:
            largest = [max(waits[notion] for _, waits in found) for notion in (0, 1)]
            assert explored(opening, budget) == (len(different), *largest), (seed, i)
            compared[0] += 1
            compared[1] += largest != [0, 0]
        else:
            assert len(different) <= len(listings), (seed, i)
    return compared


def test_waits(count, seed):
    """S-7's sentence: where an enforcer starts, the largest wait is the most further symbols for which the last symbol of some trace is held, so that
    none is held for more, and that one still after any smaller number; for one trace of each configuration."""
    compared = 0
    for i, _, automaton, further in with_further(f"waits {seed}", count):
        opening = Listing(automaton, further, 200)
        try:
            listings = reached(opening, 100)
        except TooManyRuns:
            continue
        for notion in (0, 1):
            if listings is not None and safe_of(opening, notion)(0):
                held = [wait(safe_of(listing, notion), len(listing.trace)) for listing in listings]
                assert max(held) == max(waits_of(listing)[notion] for listing in listings), (seed, i)
                compared += 0 < max(held)
    return compared


def places_by_hand():
    """Automata, further secrets and offered bytes, with the places of the first weak leak and of the first strong one: those that were worked out, and
    those that follow from the verdicts that were."""
    yield from FIRST_LEAKS
    for automaton, further, trace, verdicts, _ in SEVERAL:
        leaking = [[n for n, told in enumerate(verdicts) if n and set(told.replace(" ", "")[notion::2]) != {"-"}] for notion in (0, 1)]
        yield automaton, further, trace, *(min(places, default=None) for places in leaking)


def test_first_leaks():
    """S-8, by hand: the places of first leaks, what is printed where the automaton's own secret is the only one, and the bytes of a place."""
    for automaton, further, offered, *places in places_by_hand():
        opening = Listing(automaton, further)
        assert [first_leak(opening, notion, offered) for notion in (0, 1)] == places, (automaton.transitions, further, offered)
        assert opening.trace == []
        if not further:
            log = with_length(encoded(automaton), bytes(offered))
            assert [leak_output(log, notion) for notion in (0, 1)] == ["-\n" if place is None else f"{place}\n" for place in places], offered
    for encoding, number in ENCODINGS:
        assert [leak_output(with_length(encoding, b"\x01"), notion) for notion in (0, 1)] == [f"refused {number}\n"] * 2, number
    assert place_bytes(None) == bytes(8) and place_bytes(2) == bytes((2, 0, 0, 0, 0, 0, 0, 0)) and place_bytes(65538) == bytes((2, 0, 1, 0, 0, 0, 0, 0))


def printed_leak(lines, notion):
    """The first field of the first line of an accepted event whose verdict under the notion is a leak, or `-`; of a refused log its line."""
    fields = [line.split() for line in lines.splitlines()]
    if fields[0][0] == "refused":
        return lines
    accepted = [line for line in fields if line[0] not in ("!", "0", "end")]
    return next((line[0] for line in accepted if line[2 + notion] != "-"), "-") + "\n"


def test_printed_leaks(count, seed):
    """What is printed against the lines of a log, which has no refusal 8 here: random logs, idle and damaged ones among them."""
    compared = 0
    for i in range(count):
        log, lines = random_log(random.Random(f"printed {seed} {i}"))
        for notion in (0, 1):
            try:
                told = leak_output(log, notion)
            except TooManyRuns:
                continue
            if lines == "refused 8\n":
                assert not told.startswith("refused"), (seed, i)
            else:
                assert told == printed_leak(lines, notion), (seed, i)
                compared += told[0].isdigit()
    return compared


def first_places(automaton, secrets, offered, most):
    """For each notion the place of the first leak, and the number of bytes up to it, by runs that are listed one by one; None where there are too many
    runs."""
    trace, places = [], [(None, None), (None, None)]
    for at, byte in enumerate(offered):
        runs = runs_of(automaton, trace + [byte], most)
        if runs is None:
            return None
        if not runs:
            continue
        trace.append(byte)
        verdicts = [verdicts_of(runs, states, k, len(trace)) for states, k in secrets]
        for notion in (0, 1):
            if places[notion][0] is None and any(pair[notion] is not None for pair in verdicts):
                places[notion] = len(trace), at + 1
    return places


def test_places(count, seed):
    """First leaks against runs that are listed one by one; none where the list ends before that event, and the same wherever it ends behind it, and
    whatever is offered there."""
    compared = [0, 0, 0]
    for i, rng, automaton, further in with_further(f"places {seed}", count):
        opening = Listing(automaton, rng.choice((further, further, ())), 20000)
        offered = random_offers(rng, automaton, rng.choice((2, 3, 4, 5)), 0.4)
        found = first_places(automaton, opening.secrets, offered, 2000)
        if found is None:
            continue
        for notion, (place, needed) in enumerate(found):
            ends = [first_leak(opening, notion, offered[:end]) for end in range(len(offered) + 1)]
            if place is None:
                assert ends == [None] * len(ends), (seed, i)
                compared[1] += 1
                continue
            assert ends == [None] * needed + [place] * (len(ends) - needed), (seed, i)
            other = offered[:needed] + bytes(random_byte(rng, automaton) for _ in range(rng.randrange(6)))
            assert first_leak(opening, notion, other) == place, (seed, i)
            compared[0] += 1
            compared[2] += place < needed
    return compared


def test_forms():
    """S-9, by hand: canonical forms, each of which is its own; their number of bytes; and that no line of a refusal is an encoding."""
    for encoding, form in FORMS:
        assert canonical(encoding) == canonical(form) == canonical_output(encoding) == form, encoding.hex()
        n = len(form)
        assert written(encoding, b"\xdd" * n, bytes(8)) == (0, form, size_bytes(n)), encoding.hex()
        assert written(encoding, b"\xdd" * (n + 2), bytes(8)) == (0, form + b"\xdd\xdd", size_bytes(n)), encoding.hex()
        assert written(encoding, b"\xdd" * (n - 1), bytes(8)) == (10, b"\xdd" * (n - 1), bytes(8)), encoding.hex()
        assert written(encoding, b"", bytes(7)) == (9, b"", bytes(7)), encoding.hex()
    for encoding, number in ENCODINGS:
        assert canonical_output(encoding) == f"refused {number}\n".encode("ascii"), number
        assert [written(encoding, bytes(size), bytes(8))[0] for size in (0, 40)] == [number, number], number
    assert size_bytes(2210) == bytes((0xA2, 8, 0, 0, 0, 0, 0, 0))
    assert [refusal_of(refused_line(Refused(number)).encode("ascii")) for number in (1, 3, 4, 5, 12)] == [3] * 5


def small_encodings():
    """Every encoding with one state or two, one event or two, K 0, symbols up to 2, and at most two transitions, in each order."""
    for states, events in itertools.product((1, 2), (1, 2)):
        every = list(itertools.product(range(states), range(events), range(states)))
        lists = [listed for count in (0, 1, 2) for listed in itertools.permutations(every, count)]
        symbols = [None, *itertools.product(range(3), repeat=events)]
        flags = itertools.product(itertools.product((0, 1), repeat=states), itertools.product((0, 1), repeat=events))
        for (secret, observable), initial, listed, transitions in itertools.product(flags, range(states), symbols, lists):
            sets = [[number for number, flag in enumerate(each) if flag] for each in (secret, observable)]
            yield encoded(Automaton(states - 1, events - 1, 0, initial, *sets, transitions, listed))


def test_small_forms():
    """Of all small encodings those that say the same have one form, and those that do not have others. How many there are, and how many forms."""
    forms, meanings, count = {}, {}, 0
    for data in small_encodings():
        form, said = canonical(data), meaning(data)
        assert forms.setdefault(form, said) == said and meanings.setdefault(said, form) == form, data.hex()
        count += 1
    return count, len(forms)


def turned(data, bit):
    """The bytes with one bit turned over."""
    return (int.from_bytes(data, "big") ^ 1 << 8 * len(data) - 1 - bit).to_bytes(len(data), "big")


def test_spellings(count, seed):
    """Two encodings of an automaton have one form, which says the same, is decoded to the same table and header, is its own form, is no longer than
    either, and is what another way of writing it gives. With any bit turned over, an encoding has that form exactly if it still says the same."""
    compared = [0, 0, 0]
    for i in range(count):
        rng = random.Random(f"spellings {seed} {i}")
        automaton = (wide_automaton if i % 16 == 7 else large_automaton if i % 64 == 15 else random_automaton)(rng)
        first, second = (encoded(spelled(rng, automaton)) for _ in range(2))
        form = canonical(first)
        assert canonical(second) == canonical(form) == form == encoded(as_listed(automaton, {})), (seed, i)
        assert meaning(first) == meaning(second) == meaning(form), (seed, i)
        assert (table_of(decoded(form)), header_of(decoded(form))) == (table_of(automaton), header_of(automaton)), (seed, i)
        assert len(form) <= min(len(first), len(second)), (seed, i)
        compared[0] += first != form
        bits = range(8 * len(first))
        for bit in bits if len(first) < 40 else rng.sample(bits, 40):
            other = turned(first, bit)
            if refusal_of(other) == 0:
                assert (canonical(other) == form) == (meaning(other) == meaning(first)), (seed, i, bit)
                compared[1 if canonical(other) == form else 2] += 1
        damaged = rng.choice(ENCODING_DAMAGES)(rng, automaton, b"")[2:]
        if refusal_of(damaged):
            assert canonical_output(damaged) == f"refused {refusal_of(damaged)}\n".encode("ascii"), (seed, i)
    return compared


def by_words(text):
    """A start and pairs that are written out."""
    start, *pairs = text.split()
    return int(start), bytes(int(number) for pair in pairs for number in pair.split(","))


def test_witnesses():
    """S-10, by hand: all runs that excuse the chamber, with k up to K and the accepted symbols; what is printed; and where nothing is asked."""
    for automaton, further, trace, number, *runs in WITNESSES:
        listing = Listing(automaton, further)
        assert all(map(listing.accept, trace))
        for notion in (0, 1):
            assert len(runs[notion]) == 1 + min(len(trace), listing.secrets[number].k)
            for k, texts in enumerate(runs[notion]):
                asked, expected = asked_after(listing, notion, number, k), [by_words(text) for text in texts]
                assert sorted(listed(Ways(asked), 9)) == sorted(expected), (automaton.transitions, trace, notion, k)
                assert exists(asked) == bool(expected) and all(is_witness(asked, *run) for run in expected)
                assert only(asked) == (expected[0] if len(expected) == 1 else None)
            for absent in ((number, len(runs[notion])), (1 + len(further), 0), (255, 0), (number, 255)):
                asked = asked_after(listing, notion, *absent)
                assert asked is None and not exists(asked) and not is_witness(asked, automaton.initial, b"")
    lines = "".join(f"{word} {line}\n" for word in ("weak", "strong") for line in ("0 3", "1 3 1,3", "2 0 0,2 1,3 1,3"))
    log = with_length(P_ENCODING, bytes((1, 0, 2, 2, 1, 200, 1)))
    assert witness_output(log) == lines + "end 4\n" and wrong_output(log, lines + "end 4\n") is None
    for old, new in (("end 4", "end 7"), ("0 3", "0 1"), ("1 3 1,3", "1 no alibi"), ("1,3 1,3", "1,3"), ("0 3\n", ""), ("1,3\n", "1,3 \n"), ("2 0", "2")):
        assert wrong_output(log, lines.replace(old, new, 1) + "end 4\n".replace(old, new)), (old, new)
    assert run_bytes(63, bytes(2 * 1086)) == bytes((63, 0x3E, 4)) and run_bytes(0, b"") == bytes(3)
    for encoding, number in ENCODINGS:
        assert witness_output(with_length(encoding, b"\x01")) == f"refused {number}\n"


def cut_runs(automaton, trace, k, runs):
    """Of whole runs, each a list of transitions, what is left behind all but the last k symbols: the start and the pairs, with the positions of the whole
    run."""
    for run in runs:
        positions = states_of(automaton, run)
        at = next(place for place, (count, _) in enumerate(positions) if count == len(trace) - k)
        yield positions[at][1], bytes(byte for step in run[at:] for byte in step), positions


def test_all_witnesses(count, seed):
    """Runs that excuse the chamber against whole runs, listed one by one, each a list of transitions, and what is left of them behind all but the last k
    symbols: the moments of count n - k, and from there on, by the users' words. How many there were, and questions without."""
    compared = [0, 0, 0]
    for i, rng, automaton, further in with_further(f"witnesses {seed}", count):
        listing = Listing(automaton, further, 20000)
        trace = random_trace(rng, automaton, rng.choice((0, 1, 2, 3, 4)))
        runs = list(itertools.islice(every_run(automaton, trace, automaton.bound()), 301))
        if 300 < len(runs):
            continue
        assert all(map(listing.accept, trace))
        for notion, number in itertools.product((0, 1), range(1 + len(further))):
            states, most = listing.secrets[number]
            for k in range(min(most, len(trace)) + 1):
                asked, n, good = asked_after(listing, notion, number, k), len(trace), set()
                for start, pairs, positions in cut_runs(automaton, trace, k, runs):
                    weak = any(count == n - k and q not in states for count, q in positions)
                    strong = not any(n - k <= count and q in states for count, q in positions)
                    excuses = (weak, strong)[notion]
                    assert excuses == is_witness(asked, start, pairs) == Ways(asked).passes(start, pairs), (seed, i)
                    compared[2] += not excuses
                    if excuses:
                        good.add((start, pairs))
                assert exists(asked) == bool(good), (seed, i)
                found = listed(Ways(asked), 40)
                short = {run for run in found if few_unobserved(automaton, run[1])}
                assert short <= good and (len(found) == 40 or short == good), (seed, i)
                compared[0 if good else 1] += 1
    return compared


def few_unobserved(automaton, pairs):
    """Whether a run has at most so many unobservable steps before, between and after its symbols as the listed ones."""
    stretches = "".join("|" if event in automaton.observable else "-" for event in pairs[::2]).split("|")
    return max(map(len, stretches)) <= automaton.bound()


def test_excused(count, seed):
    """The verdicts, both ways: none exactly where there is such a run for every k up to K and the accepted symbols; leak l exactly where there is none for
    l and one for every smaller k. And random runs pass, in either way of looking at them, and with a byte changed in both or in neither."""
    compared = [0, 0, 0]
    for i, rng, automaton, further in with_further(f"excused {seed}", count):
        listing = Listing(automaton, further, 200)
        try:
            for symbol in [None, *random_trace(rng, automaton, rng.choice((2, 5, 9, 20)))]:
                assert symbol is None or listing.accept(symbol)
                for notion, number in itertools.product((0, 1), range(1 + len(further))):
                    verdict = listing.verdicts(notion)[number]
                    asks = [asked_after(listing, notion, number, k) for k in range(min(listing.secrets[number].k, len(listing.trace)) + 1)]
                    there = [exists(asked) for asked in asks]
                    assert verdict == (there.index(False) if False in there else None), (seed, i)
                    compared[verdict is not None] += 1
        except TooManyRuns:
            continue
        for asked in filter(exists, asks):
            start, pairs = random_run(rng, Ways(asked), 0.4)
            assert is_witness(asked, start, pairs) and Ways(asked).passes(start, pairs), (seed, i)
            for _ in range(4 if pairs else 0):
                other = bytearray(pairs)
                other[rng.randrange(len(pairs))] = rng.choice((*pairs, rng.randrange(256)))
                assert is_witness(asked, start, other) == Ways(asked).passes(start, other), (seed, i)
            compared[2] += 1
    return compared


class Lent(Calls):
    """Calls that remember what each call of canonical was lent."""

    def __init__(self):
        super().__init__()
        self.lent = []

    def writing(self):
        """The answer of canonical, as it is."""
        self.lent.append(tuple(self.slices[name] for name in ("encoding", "output", "size")))
        return super().writing()


def test_writers(least):
    """Each mistaken writer is told by so many of the stored calls. How many calls there are, and the fewest by which one is told."""
    calls = Lent()
    for part in CANONICAL:
        part(calls)
    found = told(calls.lent)
    assert least <= min(found.values()), [name for name, count in found.items() if count < least]
    return len(calls.lent), min(found.values())


class LentWitness(Calls):
    """Calls that remember what each call of witness, plain or behind `any`, and of check_witness was given and lent, but on states that did not grow."""

    def __init__(self):
        super().__init__()
        self.cases = []

    def remember(self, kind, function, notion, number, k, start=0):
        """One of them."""
        whole = len(self.slices["estimator"]) == ESTIMATOR_BYTES and len(self.slices["header"]) == HEADER_BYTES
        listing = self.listing("estimator") if whole and self.grew() else None
        sound = self.watching(function, notion)
        if listing or not sound:
            self.cases.append(Case(kind, sound, notion, number, k, start, listing, *(self.slices[name] for name in ("output", "run", "pairs", "valid"))))

    def witness(self, *asked):
        """As it is."""
        self.remember("witness", "witness", *asked)
        return super().witness(*asked)

    def any_witness(self, *asked):
        """As it is."""
        self.remember("any", "witness", *asked)
        return super().any_witness(*asked)

    def check_witness(self, *asked):
        """As it is."""
        self.remember("check", "check_witness", *asked)
        return super().check_witness(*asked)


def test_mistaken_witnesses(least):
    """Each mistaken program is told by so many of the stored calls; of one that takes something else to be asked for, or goes by other ways, the checker
    is, and nearly always the writer. How many calls there are, the fewest by which one is told, and how many writers and checkers are told."""
    calls = LentWitness()
    for part in WITNESS:
        part(calls)
    found = told_witnesses(calls.cases, 2 * least)
    few = [name for name, counts in found.items() if sum(counts) < least or name.startswith(("ways", "asked")) and counts[1] < least]
    assert not few, few
    writers, checkers = ([name for name, counts in found.items() if counts[place]] for place in (0, 1))
    return len(calls.cases), min(map(sum, found.values())), len(writers), len(checkers)


if __name__ == "__main__":
    test_examples()
    test_sizes()
    test_programs()
    test_repeats()
    test_symbols()
    test_saved()
    test_several()
    test_explorations()
    test_first_leaks()
    test_forms()
    test_witnesses()
    compared = test_merging(400, 1)
    separate, shared = test_meaning(600, 1)
    print(f"examples as expected, {compared} listings compared run by run; as without symbols: {separate} symbols of one event each, {shared} others")
    print(f"several secrets: {test_secrets(800, 1)} listings compared run by run; {test_apart(200, 1)} symbols as with one secret each")
    whole, leaking, spent = test_configurations(300, 1)
    waits = test_waits(300, 1)
    print(f"explorations: {whole} compared with every trace, {leaking} of them with waits; {spent} beyond the budget; {waits} waits of enforcers")
    printed = test_printed_leaks(1200, 1)
    places, none, behind = test_places(800, 1)
    print(f"first leaks: {printed} as the lines of logs; {places} compared run by run, {behind} of them behind refused bytes, and {none} lists without")
    small, forms = test_small_forms()
    spellings, kept, others = test_spellings(250, 1)
    print(f"canonical forms: {forms} of {small} small encodings, {spellings} of random ones; a bit turned over: {kept} the same, {others} others")
    calls, fewest = test_writers(5)
    print(f"canonical forms: {len(MISTAKEN_WRITERS)} mistaken writers are told, each by {fewest} or more of {calls} stored calls")
    excused, none, others = test_all_witnesses(1000, 1)
    print(f"runs that excuse: {excused} questions compared run by run, and {none} without one; {others} other runs")
    opaque, leaking, passed = test_excused(600, 1)
    print(f"runs that excuse: for {opaque} verdicts of none, and not for {leaking} leaks; {passed} random runs and others near them")
    calls, fewest, writers, checkers = test_mistaken_witnesses(5)
    mistaken = f"{len(MISTAKEN)} mistaken programs are told, each by {fewest} or more of {calls} stored calls"
    print(f"runs that excuse: {mistaken}; {writers} by what they write, {checkers} by what they let pass")
    sys.exit(0)
