"""Mistaken programs that write runs that excuse the chamber, and check them (S-10): what each answers and leaves. Stored calls have to tell each.

Most look for another run than is asked for, and so write another one, or find none, and let another one pass; the others go wrong with a refusal, with what
they write, or with bytes that are no run.
"""

import functools
from collections import namedtuple

from logs import MALFORMED, OUTPUT_TOO_SMALL
from saved import run_bytes
from witnesses import MOST_PAIRS, NO_WITNESS, OUTPUT_BYTES, TOO_FAR, Asked, Ways, asked_after, is_witness, listed, shortest

# a call of `witness`, plain or behind `any`, or of `check`: whether its slices are such that it does not get 9, and what it is given and lent
Case = namedtuple("Case", "kind sound notion number k start listing output run pairs valid")


@functools.lru_cache(maxsize=None)
def found_by(ways, asked):
    """The run that is found by some ways, or None."""
    return shortest(ways(asked))


class Program:
    """One that makes no mistake."""

    ways = Ways

    def asked(self, case):
        """What it takes to be asked for, or None where it answers 17."""
        return asked_after(case.listing, case.notion, case.number, case.k)

    def found(self, asked):
        """The run that it finds, or None."""
        return found_by(self.ways, asked)

    def small(self, case, run):
        """Whether it finds the output too small."""
        return len(case.output) < OUTPUT_BYTES

    def answer(self, case):
        """Its answer, and the run that it found."""
        if not case.sound:
            return MALFORMED, None
        asked = self.asked(case)
        if asked is None:
            return TOO_FAR, None
        run = self.found(asked)
        if self.small(case, run):
            return OUTPUT_TOO_SMALL, run
        return (NO_WITNESS if run is None else 0), run

    def laid(self, case, start, pairs):
        """The output and the run that it leaves."""
        return pairs + case.output[len(pairs) :], run_bytes(start, pairs)

    def kept(self, case):
        """The same where it refuses."""
        return case.output, case.run

    def write(self, case):
        """What it answers and leaves."""
        answer, run = self.answer(case)
        return (answer, *(self.laid(case, *run) if answer == 0 and run is not None else self.kept(case)))

    def yes(self, case, asked):
        """Whether it lets the pairs pass."""
        return asked is not None and self.ways(asked).passes(case.start, case.pairs)

    def check(self, case):
        """What its checker answers and leaves."""
        return (0, bytes([self.yes(case, self.asked(case))])) if case.sound else (MALFORMED, case.valid)

    def shown(self, case):
        """What is seen of a call: behind `any` no more than the number of a refusal, or whether a run passes that the checker, a right one, is lent."""
        if case.kind == "check":
            return self.check(case)
        answer, output, run = self.write(case)
        if case.kind == "witness":
            return answer, output, run
        if answer:
            return answer
        size = 2 * int.from_bytes(run[1:3], "little")
        fits = size <= OUTPUT_BYTES and output[size:] == case.output[size:]
        return fits and is_witness(asked_after(case.listing, case.notion, case.number, case.k), run[0], output[:size])


def program(base=Program, **methods):
    """A program that differs in these."""
    return type("Mistaken", (base,), methods)()


# those that go by other ways


def by_ways(**methods):
    """One whose runs go otherwise."""
    return program(ways=type("Otherwise", (Ways,), methods))


def weak_by(clear_at):
    """One that takes other positions for those of which one is not secret, under weak: by what was before, whether the state is secret, how many symbols
    were shown, and by which step it came."""
    def way(self, state, count, clear, shown):
        if self.asked.notion == 1:
            return Ways.way(self, state, count, clear, shown)
        return state, count, clear_at(clear, state in self.asked.secret, count, shown)

    return by_ways(way=way)


def strong_by(looks):
    """One that does not look at every position, under strong: by how many symbols were shown, of how many, and by which step it came."""
    def way(self, state, count, clear, shown):
        if self.asked.notion == 1 and state in self.asked.secret and looks(count, len(self.asked.symbols), shown):
            return None
        return state, count, clear or count == 0 and state not in self.asked.secret

    return by_ways(way=way)


def observable_numbers(self, event):
    """Takes the event for the symbol."""
    return event if event in self.asked.automaton.observable else None


def every_symbol(self, event):
    """Takes unobservable events for observable ones, with their own numbers."""
    return self.asked.automaton.symbol_of.get(event, event)


def ends_at_symbol(self, state, count, clear, shown):
    """No step behind the last symbol."""
    behind = shown is None and count == len(self.asked.symbols)
    return None if behind else Ways.way(self, state, count, clear, shown)


def fires_at_once(self, state, count, clear, shown):
    """No step before the first symbol."""
    before = shown is None and count == 0
    return None if before and self.asked.symbols else Ways.way(self, state, count, clear, shown)


def alike(self, state):
    """Any event that shows what the one of the transition does."""
    listed = [(self.symbol(event), target) for event, target in Ways.leaving(self, state)]
    return sorted({(event, target) for symbol, target in listed for event in range(32) if self.symbol(event) == symbol})


def backwards(self, state):
    """Transitions the other way around."""
    return sorted({(event, source) for source, event, target in self.asked.automaton.transitions if target == state})


def any_event(self, state):
    """Transitions of any state, as far as the one reached is concerned."""
    return sorted({(event, target) for _, event, target in self.asked.automaton.transitions})


BY_WAYS = {
    "weak: the start alone": weak_by(lambda clear, inside, count, shown: clear or shown == "start" and not inside),
    "weak: not the start": weak_by(lambda clear, inside, count, shown: clear or shown != "start" and count == 0 and not inside),
    "weak: the last position before the first symbol": weak_by(lambda clear, inside, count, shown: not inside if count == 0 else clear),
    "weak: every position before the first symbol": weak_by(
        lambda clear, inside, count, shown: not inside if shown == "start" else clear and (0 < count or not inside)
    ),
    "weak: any position": weak_by(lambda clear, inside, count, shown: clear or not inside),
    "weak: the first symbol's position too": weak_by(lambda clear, inside, count, shown: clear or count < 2 and not inside),
    "weak: secret for not secret": weak_by(lambda clear, inside, count, shown: clear or count == 0 and inside),
    "weak: no position": weak_by(lambda clear, inside, count, shown: True),
    "strong: not the start": strong_by(lambda count, most, shown: shown != "start"),
    "strong: the start alone": strong_by(lambda count, most, shown: shown == "start"),
    "strong: not before the first symbol": strong_by(lambda count, most, shown: 0 < count),
    "strong: not behind the last symbol": strong_by(lambda count, most, shown: count < most or shown is not None),
    "strong: not the last symbol's position": strong_by(lambda count, most, shown: count < most),
    "strong: the start, and where symbols are shown": strong_by(lambda count, most, shown: shown is not None),
    "strong: where none is shown": strong_by(lambda count, most, shown: shown in (None, "start")),
    "events for symbols": by_ways(symbol=observable_numbers),
    "unobservable events shown": by_ways(symbol=every_symbol),
    "a symbol too few": by_ways(whole=lambda self, way: way[1] + 1 >= len(self.asked.symbols) and (self.asked.notion == 1 or way[2])),
    "any number of symbols": by_ways(whole=lambda self, way: self.asked.notion == 1 or way[2]),
    "symbols in the other order": by_ways(fits=lambda self, symbol, count: self.asked.symbols[::-1][count : count + 1] == (symbol,)),
    "any symbols, as many": by_ways(fits=lambda self, symbol, count: count < len(self.asked.symbols)),
    "an event for another of its symbol": by_ways(leaving=alike),
    "transitions backwards": by_ways(leaving=backwards),
    "transitions of any state": by_ways(leaving=any_event),
    "no step behind the last symbol": by_ways(way=ends_at_symbol),
    "no step before the first symbol": by_ways(way=fires_at_once),
}


# those that take something else to be asked for


def asks(k_fits=None, secret=None, starts=None, symbols=None, notion=lambda notion: notion):
    """One that turns away another k, or takes another secret, other starts, other symbols or another notion. Each is given the listing, the number of the
    secret and k."""
    def asked(self, case):
        listing, number, k = case.listing, case.number, case.k
        n, secrets = len(listing.trace), listing.secrets
        taken = secret(listing, number) if secret else number
        if not 0 <= taken < len(secrets):
            return None
        if not (k_fits(listing, taken, k) if k_fits else k <= min(secrets[taken].k, n)):
            return None
        k = min(k, n)
        entered = starts(listing, n - k) if starts else listing.entered[n - k]
        shown = symbols(listing.trace, k) if symbols else listing.trace[n - k :]
        return Asked(listing.automaton, notion(case.notion), secrets[taken].states, frozenset(entered), tuple(shown))

    return program(asked=asked)


def accepted(listing):
    """How many symbols were accepted."""
    return len(listing.trace)


def estimate(listing, length):
    """Where runs end that are compatible with so many symbols."""
    return {end for end, _ in listing.compatible.get(length, ())}


BY_ASKING = {
    "k by the largest K": asks(lambda listing, number, k: k <= min(listing.largest, accepted(listing))),
    "k by the automaton's own K": asks(lambda listing, number, k: k <= min(listing.automaton.k, accepted(listing))),
    "k by the accepted symbols alone": asks(lambda listing, number, k: k <= accepted(listing)),
    "k by K alone": asks(lambda listing, number, k: k <= listing.secrets[number].k),
    "k below K": asks(lambda listing, number, k: k < listing.secrets[number].k and k <= accepted(listing)),
    "k up to K + 1": asks(lambda listing, number, k: k <= min(listing.secrets[number].k + 1, accepted(listing))),
    "k below the accepted symbols": asks(lambda listing, number, k: k <= listing.secrets[number].k and k < accepted(listing)),
    "k up to 15": asks(lambda listing, number, k: k <= min(15, accepted(listing))),
    "k modulo 16": program(asked=lambda self, case: asked_after(case.listing, case.notion, case.number, case.k % 16)),
    "the secret before": asks(secret=lambda listing, number: number - 1),
    "the secret behind": asks(secret=lambda listing, number: number + 1),
    "the automaton's own secret": asks(secret=lambda listing, number: 0 if number < len(listing.secrets) else number),
    "the last secret where none is given": asks(secret=lambda listing, number: min(number, len(listing.secrets) - 1)),
    "the secret modulo 4": asks(secret=lambda listing, number: number % 4),
    "the last secret forgotten": asks(secret=lambda listing, number: number if number == 0 or number + 1 < len(listing.secrets) else 9),
    "starts anywhere": asks(starts=lambda listing, length: range(64)),
    "starts in the estimate": asks(starts=estimate),
    "starts in the initial state": asks(starts=lambda listing, length: {listing.automaton.initial}),
    "starts where runs are now": asks(starts=lambda listing, length: listing.entered[-1]),
    "starts a symbol later": asks(starts=lambda listing, length: listing.entered[min(length + 1, accepted(listing))]),
    "starts a symbol sooner": asks(starts=lambda listing, length: listing.entered[max(length - 1, 0)]),
    "starts in the first state that there is": asks(starts=lambda listing, length: {min(listing.entered[length])}),
    "starts in the last state that there is": asks(starts=lambda listing, length: {max(listing.entered[length])}),
    "the first k symbols": asks(symbols=lambda trace, k: trace[:k]),
    "a symbol more": asks(symbols=lambda trace, k: trace[-min(k + 1, len(trace)) :] if trace else ()),
    "the other notion": asks(notion=lambda notion: 1 - notion),
    "always weak": asks(notion=lambda notion: 0),
    "always strong": asks(notion=lambda notion: 1),
}


def telling(mistake, listing, notion, number, k):
    """Some runs by which a mistaken program of these kinds is told: they pass, and ought not to, or the other way around."""
    right, wrong = asked_after(listing, notion, number, k), mistake.asked(Case("check", True, notion, number, k, 0, listing, b"", b"", b"", b""))
    runs = [run for run in listed(mistake.ways(wrong), 6) if not is_witness(right, *run)] if wrong else []
    return runs + [run for run in listed(Ways(right), 6) if not (wrong and mistake.ways(wrong).passes(*run))] if right else runs


# those that refuse otherwise, or write otherwise


class TrayFirst(Program):
    """10 comes before 17."""

    def answer(self, case):
        return (OUTPUT_TOO_SMALL, None) if case.sound and self.small(case, None) else super().answer(case)


class NoneBeforeTray(Program):
    """16 comes before 10."""

    def answer(self, case):
        answer, run = super().answer(case)
        return (NO_WITNESS if answer == OUTPUT_TOO_SMALL and run is None else answer), run


class FarBeforeTorn(Program):
    """17 comes before 9, where there is an estimator."""

    def answer(self, case):
        far = not case.sound and case.listing and self.asked(case) is None
        return (TOO_FAR, None) if far else super().answer(case)


class TrayBeforeTorn(Program):
    """10 comes before 9."""

    def answer(self, case):
        return (OUTPUT_TOO_SMALL, None) if self.small(case, None) else super().answer(case)


def answering(number, instead):
    """One that gives another answer than this one."""
    def answer(self, case):
        given, run = Program.answer(self, case)
        return (instead if given == number else given), run

    return program(answer=answer)


def lays(output=None, run=None):
    """One that leaves other bytes, where it writes."""
    def laid(self, case, start, pairs):
        left_output, left_run = Program.laid(self, case, start, pairs)
        return output(case, start, pairs) if output else left_output, run(case, start, pairs) if run else left_run

    return program(laid=laid)


def turned(pairs):
    """The state before the event."""
    return bytes(byte for event, state in zip(pairs[::2], pairs[1::2]) for byte in (state, event))


def over(case, data):
    """The output with these bytes at its front."""
    return data + case.output[len(data) :]


BY_WRITING = {
    "10 before 17": TrayFirst(),
    "16 before 10": NoneBeforeTray(),
    "17 before 9": FarBeforeTorn(),
    "10 before 9": TrayBeforeTorn(),
    "10 for just enough": program(small=lambda self, case, run: len(case.output) <= OUTPUT_BYTES),
    "10 not for a byte too few": program(small=lambda self, case, run: len(case.output) + 1 < OUTPUT_BYTES),
    "10 for a byte too many": program(small=lambda self, case, run: len(case.output) != OUTPUT_BYTES),
    "10 under the run's bytes": program(small=lambda self, case, run: run is not None and len(case.output) < len(run[1])),
    "10 under 17 bytes": program(small=lambda self, case, run: len(case.output) < 17),
    "17 for 16": answering(NO_WITNESS, TOO_FAR),
    "16 for 17": answering(TOO_FAR, NO_WITNESS),
    "9 for 17": answering(TOO_FAR, MALFORMED),
    "16 never": answering(NO_WITNESS, 0),
    "the rest is cleared": lays(lambda case, start, pairs: pairs.ljust(len(case.output), b"\0")),
    "a byte behind the pairs is cleared": lays(lambda case, start, pairs: over(case, pairs + b"\0")),
    "the state before the event": lays(lambda case, start, pairs: over(case, turned(pairs))),
    "the start as a state in front": lays(lambda case, start, pairs: over(case, bytes([start]) + pairs[:-1] if pairs else b"")),
    "the last pair forgotten": lays(lambda case, start, pairs: over(case, pairs[:-2]), lambda case, start, pairs: run_bytes(start, pairs[:-2])),
    "the pairs from the last on": lays(lambda case, start, pairs: over(case, turned(pairs[::-1]))),
    "symbols for events": lays(
        lambda case, start, pairs: over(
            case, bytes(case.listing.automaton.symbol_of.get(byte, byte) if at % 2 == 0 else byte for at, byte in enumerate(pairs))
        )
    ),
    "the count's high byte first": lays(run=lambda case, start, pairs: bytes([start]) + run_bytes(start, pairs)[:0:-1]),
    "the count's low byte alone": lays(run=lambda case, start, pairs: run_bytes(start, pairs)[:2] + b"\0"),
    "the count of bytes": lays(run=lambda case, start, pairs: run_bytes(start, 2 * pairs)),
    "the count one more": lays(run=lambda case, start, pairs: run_bytes(start, pairs + b"\0\0")),
    "the count before the start": lays(run=lambda case, start, pairs: run_bytes(start, pairs)[1:] + bytes([start])),
    "no start": lays(run=lambda case, start, pairs: case.run[:1] + run_bytes(start, pairs)[1:]),
    "no count": lays(run=lambda case, start, pairs: bytes([start]) + case.run[1:]),
    "the last state for the start": lays(run=lambda case, start, pairs: run_bytes(pairs[-1] if pairs else start, pairs)),
    "a refused output is cleared": program(kept=lambda self, case: (bytes(len(case.output)), case.run)),
    "a refused run is cleared": program(kept=lambda self, case: (case.output, bytes(len(case.run)))),
}


# those that check otherwise


def passing(yes):
    """One that lets other bytes pass, over what a right one is asked."""
    return program(yes=lambda self, case, asked: asked is not None and yes(case, asked))


def masked(pairs, events=255, states=255):
    """Pairs of which the low bits alone count."""
    return bytes(byte & (states if at % 2 else events) for at, byte in enumerate(pairs))


def without_cycles(case, asked):
    """No state comes twice between two symbols."""
    stretch = {case.start}
    for event, state in zip(case.pairs[::2], case.pairs[1::2]):
        if state in stretch and event not in asked.automaton.observable:
            return False
        stretch = {state} if event in asked.automaton.observable else stretch | {state}
    return is_witness(asked, case.start, case.pairs)


class GoesOn(Ways):
    """Runs that show more symbols, behind those that are asked for."""

    def fits(self, symbol, count):
        return len(self.asked.symbols) <= count or super().fits(symbol, count)

    def whole(self, way):
        return len(self.asked.symbols) <= way[1] and (self.asked.notion == 1 or way[2])


def with_unlisted(case, asked):
    """The last step need be no transition."""
    if len(case.pairs) < 2 or len(case.pairs) % 2 or case.pairs[-2] not in asked.automaton.symbol_of:
        return is_witness(asked, case.start, case.pairs)
    last = case.pairs[-3] if len(case.pairs) > 2 else case.start
    others = Ways(asked._replace(automaton=with_step(asked.automaton, last, *case.pairs[-2:])))
    return others.passes(case.start, case.pairs)


def with_step(automaton, source, event, target):
    """The automaton with one transition more."""
    return type(automaton)(
        automaton.top_state, automaton.top_event, automaton.k, automaton.initial, automaton.secret, automaton.observable,
        [*automaton.transitions, (source, event, target)], automaton.symbols,
    )


class FarIsRefused(Program):
    """17 where it ought to say no."""

    def check(self, case):
        return (TOO_FAR, case.valid) if case.sound and self.asked(case) is None else super().check(case)


class OddIsTorn(Program):
    """9 for an odd length."""

    def check(self, case):
        return (MALFORMED, case.valid) if len(case.pairs) % 2 else super().check(case)


class StrayIsTorn(Program):
    """9 for a start, an event or a state that is out of range."""

    def check(self, case):
        stray = 63 < case.start or any(63 < byte for byte in case.pairs[1::2]) or any(31 < byte for byte in case.pairs[::2])
        return (MALFORMED, case.valid) if stray else super().check(case)


class YesAlone(Program):
    """Writes nothing where it says no."""

    def check(self, case):
        answer, valid = super().check(case)
        return answer, valid if valid == b"\x01" else case.valid


BY_CHECKING = {
    "an odd byte behind is passed over": passing(lambda case, asked: is_witness(asked, case.start, case.pairs[: len(case.pairs) // 2 * 2])),
    "the start modulo 64": passing(lambda case, asked: is_witness(asked, case.start % 64, case.pairs)),
    "states modulo 64": passing(lambda case, asked: is_witness(asked, case.start, masked(case.pairs, states=63))),
    "events modulo 32": passing(lambda case, asked: is_witness(asked, case.start, masked(case.pairs, events=31))),
    "no more than 1,086 pairs": passing(lambda case, asked: len(case.pairs) <= 2 * MOST_PAIRS and is_witness(asked, case.start, case.pairs)),
    "no more than 255 pairs": passing(lambda case, asked: len(case.pairs) <= 510 and is_witness(asked, case.start, case.pairs)),
    "no state twice between two symbols": passing(without_cycles),
    "no empty run": passing(lambda case, asked: bool(case.pairs) and is_witness(asked, case.start, case.pairs)),
    "every empty run": passing(lambda case, asked: not case.pairs or is_witness(asked, case.start, case.pairs)),
    "more symbols may follow": passing(lambda case, asked: GoesOn(asked).passes(case.start, case.pairs)),
    "the last step need not be listed": passing(with_unlisted),
    "the shortest runs alone": passing(
        lambda case, asked: is_witness(asked, case.start, case.pairs) and len(case.pairs) == len(shortest(Ways(asked))[1])
    ),
    "the state before the event": passing(lambda case, asked: len(case.pairs) % 2 == 0 and is_witness(asked, case.start, turned(case.pairs))),
    "always yes": passing(lambda case, asked: True),
    "always no": passing(lambda case, asked: False),
    "17 for a no": FarIsRefused(),
    "9 for an odd length": OddIsTorn(),
    "9 for bytes out of range": StrayIsTorn(),
    "a no is not written": YesAlone(),
}

# with the calls that may tell each: both kinds, those that write, or those that check
EVERY, WRITE, CHECK = ("witness", "any", "check"), ("witness", "any"), ("check",)
MISTAKEN = {
    f"{kind}, {name}": (calls, mistake)
    for kind, calls, mistakes in (
        ("ways", EVERY, BY_WAYS), ("asked", EVERY, BY_ASKING), ("written", WRITE, BY_WRITING), ("checked", CHECK, BY_CHECKING)
    )
    for name, mistake in mistakes.items()
}


def told(cases, enough):
    """For each mistaken program, by how many of these calls its writer is told, and by how many its checker; no more are looked for than enough."""
    right = [Program().shown(case) for case in cases]
    counts = {}
    for name, (kinds, mistake) in MISTAKEN.items():
        found = {"write": 0, "check": 0}
        for case, shown in zip(cases, right):
            side = "check" if case.kind == "check" else "write"
            if case.kind in kinds and found[side] < enough:
                found[side] += mistake.shown(case) != shown
        counts[name] = tuple(found.values())
    return counts
