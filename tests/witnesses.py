"""Runs that excuse the chamber (S-10), which its users call alibis: whether bytes are one, whether there is one, which there are, and what the program that
prints them has to print, from the definitions.

Asked for is a run over the last k symbols of a trace, by a notion, 0 weak or 1 strong, and one secret by its own K. It starts where a run is right after
the symbol before them, by the symbols up to that one alone, or in the initial state if there is none. Its steps are transitions, one after another, and
show those symbols and no other; unobservable ones may stand anywhere. Under weak some position before its first observable step is not secret, under
strong no position is, the start included. Nothing is asked, and there is no such run, where the secret is not given, or where k is above its K or above
the number of accepted symbols.

`is_witness` reads these sentences off one run. All else goes by the ways of a run: the state it is in, how many symbols it has shown, and whether a
position before them was not secret. What may follow depends on no more, and there are at most 64 * 16 * 2 ways, so that a plain search comes to its end
though there may be infinitely many runs.
"""

from collections import namedtuple

from logs import Refused, refused_line, started

NO_WITNESS, TOO_FAR = 16, 17
MOST_PAIRS = 1086  # that are written
OUTPUT_BYTES = 2 * MOST_PAIRS  # the least that an output has
NOTIONS = "weak", "strong"

Asked = namedtuple("Asked", "automaton notion secret starts symbols")


def asked_after(listing, notion, number, k):
    """What is asked for after the trace of a listing, or None."""
    n = len(listing.trace)
    if len(listing.secrets) <= number or min(listing.secrets[number].k, n) < k:
        return None
    return Asked(listing.automaton, notion, listing.secrets[number].states, frozenset(listing.entered[n - k]), tuple(listing.trace[n - k :]))


def is_witness(asked, start, pairs):
    """Whether bytes, the pairs of an event and the state reached, are such a run from this start."""
    if asked is None or len(pairs) % 2 or start not in asked.starts:
        return False
    at, shown, positions = start, [], [(0, start)]
    for event, target in zip(pairs[::2], pairs[1::2]):
        if (at, event, target) not in asked.automaton.transitions:
            return False
        if event in asked.automaton.observable:
            shown.append(asked.automaton.symbol_of[event])
        positions.append((len(shown), target))
        at = target
    if tuple(shown) != asked.symbols:
        return False
    if asked.notion == 1:
        return not any(state in asked.secret for _, state in positions)
    return any(state not in asked.secret for count, state in positions if count == 0)


class Ways:
    """The ways of runs over what is asked. (Mistaken programs go by other ones.)"""

    def __init__(self, asked):
        self.asked = asked

    def way(self, state, count, clear, shown):
        """The way of a run that comes into a state, by a step that shows a symbol, by one that shows None, or as its start, which shows `start`; or None
        where it is no such run however it goes on."""
        inside = state in self.asked.secret
        if self.asked.notion == 1 and inside:
            return None
        return state, count, clear or count == 0 and not inside

    def starts(self):
        """The states in which runs start, each with its way."""
        ways = [(start, self.way(start, 0, False, "start")) for start in sorted(self.asked.starts)]
        return [(start, way) for start, way in ways if way]

    def symbol(self, event):
        """The symbol that an event shows, or None."""
        return self.asked.automaton.symbol_of.get(event)

    def fits(self, symbol, count):
        """Whether a symbol may be shown behind so many."""
        return self.asked.symbols[count : count + 1] == (symbol,)

    def leaving(self, state):
        """The events that leave a state, each with the state reached."""
        return self.asked.automaton.leaving.get(state, ())

    def steps(self, way):
        """The events that may follow, each with its way."""
        state, count, clear = way
        for event, target in self.leaving(state):
            symbol = self.symbol(event)
            if symbol is None or self.fits(symbol, count):
                after = self.way(target, count + (symbol is not None), clear, symbol)
                if after:
                    yield event, after

    def whole(self, way):
        """Whether a run may end there."""
        _, count, clear = way
        return count == len(self.asked.symbols) and (self.asked.notion == 1 or clear)

    def passes(self, start, pairs):
        """Whether these bytes are a run that goes by the ways."""
        way = dict(self.starts()).get(start)
        for event, target in zip(pairs[::2], pairs[1::2]):
            way = way and next((after for at, after in self.steps(way) if (at, after[0]) == (event, target)), None)
        return len(pairs) % 2 == 0 and way is not None and self.whole(way)


def reached(ways):
    """Every way that a run comes to, with the events that may follow."""
    found, pending = {}, [way for _, way in ways.starts()]
    while pending:
        way = pending.pop()
        if way not in found:
            found[way] = list(ways.steps(way))
            pending += [after for _, after in found[way]]
    return found


def exists(asked):
    """Whether there is such a run."""
    return asked is not None and any(map(Ways(asked).whole, reached(Ways(asked))))


def left(ways):
    """How many steps are left at least, by each way from which a run may come to its end."""
    found, before = reached(ways), {}
    for way, steps in found.items():
        for _, after in steps:
            before.setdefault(after, []).append(way)
    fewest = {way: 0 for way in found if ways.whole(way)}
    latest = list(fewest)
    while latest:
        latest = list({way: None for after in latest for way in before.get(after, ()) if way not in fewest})
        fewest.update({way: 1 + min(fewest[after] for _, after in found[way] if after in fewest) for way in latest})
    return fewest


def ended(ways, fewest, pairs, way):
    """The pairs of a run that goes on by the fewest steps to its end, where so many are left by each way."""
    while fewest[way]:
        event, way = next((event, after) for event, after in ways.steps(way) if fewest.get(after) == fewest[way] - 1)
        pairs += bytes((event, way[0]))
    return pairs


def listed(ways, most):
    """All runs, each as its start and its pairs, the shorter ones first; or so many of them, where there are more. (Beginnings of one length come each to
    an end of its own, so that of as many beginnings no more need be known.)"""
    fewest, found = left(ways), []
    latest = [(start, b"", way) for start, way in ways.starts() if way in fewest]
    while latest and len(found) + len(latest) < most:
        found += [(start, pairs) for start, pairs, way in latest if ways.whole(way)]
        longer = ((start, pairs, step) for start, pairs, way in latest for step in ways.steps(way))
        latest = [(start, pairs + bytes((event, after[0])), after) for start, pairs, (event, after) in longer if after in fewest]
    return found + [(start, ended(ways, fewest, pairs, way)) for start, pairs, way in latest[: most - len(found)]]


def shortest(ways):
    """A run with the fewest steps, or None."""
    fewest = left(ways)
    starts = [(fewest[way], start, way) for start, way in ways.starts() if way in fewest]
    if not starts:
        return None
    _, start, way = min(starts)
    return start, ended(ways, fewest, b"", way)


def random_run(rng, ways, often):
    """Any run, with more steps than it needs the more often it takes one that need not bring it nearer to its end; there is one."""
    fewest, pairs = left(ways), b""
    start, way = rng.choice([(start, way) for start, way in ways.starts() if way in fewest])
    while True:
        wanders = rng.random() < often
        steps = [(event, after) for event, after in ways.steps(way) if after in fewest and (wanders or fewest[after] < fewest[way])]
        if not steps:
            return start, pairs
        event, way = rng.choice(steps)
        pairs += bytes((event, way[0]))


def only(asked):
    """The run, where there is exactly one, or None."""
    found = listed(Ways(asked), 2)
    return found[0] if len(found) == 1 else None


# the program that prints them for a log


def witness_line(notion, k, run):
    """The line of a run, a start and pairs, or of None."""
    said = "no alibi" if run is None else " ".join([str(run[0])] + [f"{event},{state}" for event, state in zip(run[1][::2], run[1][1::2])])
    return f"{NOTIONS[notion]} {k} {said}"


def read_line(line):
    """The start and the pairs that a line has, or None; ValueError where it has none of them."""
    words = line.split(" ")[2:]
    if words == ["no", "alibi"]:
        return None
    return int(words[0]), bytes(int(number) for word in words[1:] for number in word.split(","))


def judged(log):
    """The listing of all that a log offers."""
    listing, offered = started(log)
    for byte in offered:
        listing.accept(byte)
    return listing


def log_asks(listing):
    """What the program looks for, in its order: the notion, k, and what is asked, of the automaton's own secret."""
    most = min(listing.secrets[0].k, len(listing.trace))
    return [(notion, k, asked_after(listing, notion, 0, k)) for notion in (0, 1) for k in range(most + 1)]


def witness_output(log, choose=lambda asked: shortest(Ways(asked))):
    """What the program may print for a log: with the shortest runs, or others."""
    try:
        listing = judged(log)
    except Refused as refused:
        return refused_line(refused)
    lines = [witness_line(notion, k, choose(asked)) for notion, k, asked in log_asks(listing)]
    return "".join(f"{line}\n" for line in [*lines, f"end {len(listing.trace)}"])


def wrong_line(notion, k, asked, line):
    """Whether a line is not one that may stand there."""
    try:
        run = read_line(line)
    except (ValueError, IndexError):
        return True
    fits = not exists(asked) if run is None else len(run[1]) <= OUTPUT_BYTES and is_witness(asked, *run)
    return not fits or line != witness_line(notion, k, run)


def wrong_output(log, text):
    """What is wrong with what the program printed for a log, or None. Any run that there is will do."""
    try:
        listing = judged(log)
    except Refused as refused:
        return None if text == refused_line(refused) else f"expected {refused_line(refused)!r}"
    lines, asks = text.split("\n"), log_asks(listing)
    if len(lines) != len(asks) + 2 or lines[-2:] != [f"end {len(listing.trace)}", ""]:
        return f"expected {len(asks)} lines, and the last one 'end {len(listing.trace)}'"
    wrong = (line for line, (notion, k, asked) in zip(lines, asks) if wrong_line(notion, k, asked, line))
    return next((f"wrong: {line!r}" for line in wrong), None)
