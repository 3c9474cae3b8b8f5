"""The configurations of an automaton, each found by a trace whose runs are listed, and the largest waits over all of them (S-7).

The configuration after a trace of n symbols is, with m the largest K or n if that is fewer: the last m symbols; where runs are right after each of
them, judged by the symbols up to it, before any unobservable transition that follows; and the same for the symbol before them, or the initial state
alone if there is none. With K 0 that is where runs are right after the last symbol, and nothing more.

The wait of a secret after a trace is its own K + 1 less the steps of the verdict, and 0 where there is no leak. It is taken by the verdicts of the
listed runs, after each trace, the empty one too.

WHY ONE TRACE FOR EACH CONFIGURATION IS ENOUGH. There are infinitely many traces; listed is the first that is found for each configuration, and one
symbol is added to those alone. For every other trace with that configuration has the same to say:
  - which symbols can follow, and where runs are right after one, depends on where they are right after the last symbol, which is the first of the
    sets. What the next configuration has beside that set is taken from this one: its symbols and sets, without the oldest once there are K symbols.
  - a verdict with l steps asks, of the runs that are compatible with the trace, for their positions of count n - l and more, and l is at most m. A
    run with those positions is where runs can be right after symbol n - l, which is one of the sets, and goes on from there by transitions whose
    symbols are the last l. Whatever came before it, there is such a run after the other trace too.
`self_test.py` does without this: it lists every trace up to a length.
"""

from collections import namedtuple

MOST = 256  # a larger budget counts as this one

Exploration = namedtuple("Exploration", "count weak strong")


def configuration(listing):
    """What the trace of a listing leads to: its last symbols, and the sets of states, the newest first."""
    n = len(listing.trace)
    m = min(listing.largest, n)
    return tuple(listing.trace[n - m :]), tuple(frozenset(listing.entered[n - back]) for back in range(m + 1))


def wait_of(secret, steps):
    """The wait of a secret with this verdict."""
    return 0 if steps is None else secret.k + 1 - steps


def waits_of(listing):
    """The largest weak wait and the largest strong one of all secrets, after the trace of a listing."""
    return tuple(max(map(wait_of, listing.secrets, listing.verdicts(notion))) for notion in (0, 1))


def reached(opening, most=MOST, key=configuration):
    """A listing for each configuration, the shortest traces first; None where there are more of them than `most`. (With another key: for each value
    of it, which need not be enough.)"""
    symbols = sorted(set(opening.automaton.symbol_of.values()))
    found, listings = {key(opening)}, [opening]
    for listing in listings:  # which grows
        if most < len(listings):
            return None
        for longer in filter(None, map(listing.longer, symbols)):
            if key(longer) not in found:
                found.add(key(longer))
                listings.append(longer)
    return None if most < len(listings) else listings


def explored(opening, budget=MOST, key=configuration):
    """How many configurations there are and the largest waits, from the listing of the empty trace on; None where the budget is spent."""
    listings = reached(opening, min(budget, MOST), key)
    if listings is None:
        return None
    waits = [waits_of(listing) for listing in listings]
    return Exploration(len(listings), max(weak for weak, _ in waits), max(strong for _, strong in waits))
