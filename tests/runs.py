"""Runs of small automata, listed, and what the definitions of opacity say of the listed runs.

This is written from the definitions alone and shares nothing with the verified code: no set of possible states is kept, and nothing is
looked at backwards. Runs are listed from the initial state on, each with its positions, and a definition is evaluated over all of them.

A run is a list of transitions from the initial state; it is compatible with a trace, a list of symbols, if the symbols of its observable events, in
order, are the trace. Several events may have one symbol. A position is a point before, between or after its transitions, and its count is the
number of observable events before it.

A secret is a set of states with its own K (S-6). They are numbered: 0 is the automaton's own, and the further ones follow as they are given. Runs do
not depend on them, and each question is asked of one secret by its own K; a prefix is safe if it is so for every one of them.

WHICH RUNS ARE LISTED. There are infinitely many where unobservable transitions form a cycle. Listed are those with at most 2 (s - 1)
unobservable transitions before the first, between each two and after the last observable one, where s is the number of states that a run
can visit at all: the initial state and the targets of transitions. That is enough, since each question that is asked here, or its opposite,
asks for one compatible run (the estimate size: for one in each state), and where there is such a run there is one that is listed:
  - a compatible run (refusal 7): cut the cycles out between two observations, so that no state comes twice there: at most s - 1
    transitions are left. The trace stays, since only unobservable ones were cut.
  - one that ends in a given state (estimate size): cut the cycles out between two observations and after the last one, each stretch by itself: at
    most s - 1 transitions are left in each. A stretch still leads from its first state to its last, so the run ends where it ended. No other
    state is counted, since what is listed are compatible runs.
  - one with a position of count j that is not secret (weak verdict, weak safe prefix): between the observations around that position cut
    the cycles out before it and after it, each by itself, so that it stays: at most (s - 1) + (s - 1) transitions. A run may have to go
    out to the position's state and back. Elsewhere cut as above.
  - one with no secret position of a count from j on (strong verdict, strong safe prefix): cutting leaves some of the positions, and adds none.
Secret is here what is in the secret that is asked for: of several, each has such a run of its own, or none.

WHAT IS KEPT OF A RUN: the state in which it ends, and its positions, each as its count and, for each secret, whether its state is in it. Nothing
that is asked depends on more, and what a transition adds depends on the state alone. So runs with equal facts stay equal however they go on, and
are listed once, by one with the fewest unobservable transitions since the last observation. After n symbols no count below n - K, with the largest
K, is asked for any more, neither by a verdict (n - l with l <= K) nor by a safe prefix (n - j <= K), and n only grows: such positions are left out.
"""

import copy
from collections import namedtuple

Secret = namedtuple("Secret", "states k")


class Automaton:
    """States, events, the look-back K, secret states, observable events, transitions as (from, event, to), and a symbol for each event, of which
    only those of observable events count. Without symbols each observable event has its own number."""

    def __init__(self, top_state, top_event, k, initial, secret, observable, transitions, symbols=None):
        self.top_state = top_state
        self.top_event = top_event
        self.k = k
        self.initial = initial
        self.secret = frozenset(secret)
        self.observable = frozenset(observable)
        self.transitions = list(transitions)
        self.symbols = None if symbols is None else list(symbols)
        # of the observable events
        self.symbol_of = {event: event if symbols is None else self.symbols[event] for event in sorted(self.observable)}
        self.leaving = {}
        for source, event, target in sorted(set(self.transitions)):
            self.leaving.setdefault(source, []).append((event, target))

    def bound(self):
        """The most unobservable transitions of a listed run between two observations."""
        visited = {self.initial} | {target for _, _, target in self.transitions}
        return 2 * (len(visited) - 1)


class TooManyRuns(Exception):
    """The listing would take too long."""


class Listing:
    """The runs compatible with each prefix of a trace that grows symbol by symbol, with the automaton's own secret and the further ones."""

    def __init__(self, automaton, further=(), limit=4000):
        self.automaton = automaton
        self.secrets = (Secret(automaton.secret, automaton.k), *further)
        self.largest = max(secret.k for secret in self.secrets)
        self.limit = limit
        self.trace = []
        first = (automaton.initial, frozenset({(0, self.inside(automaton.initial))}))
        # by the length of the prefix; those that no question asks for any more are left out
        self.compatible = {0: self.continued({first}, 0)}
        # by the length of the prefix: where its runs are right after their last observable event, or else at their start
        self.entered = [{automaton.initial}]

    def inside(self, state):
        """For each secret, whether the state is in it."""
        return tuple(state in secret.states for secret in self.secrets)

    def extended(self, runs, observed, count):
        """The runs by one transition longer: by an observable event with the observed symbol, or by an unobservable one where that is None."""
        longer = set()
        for end, positions in runs:
            for event, target in self.automaton.leaving.get(end, ()):
                if self.automaton.symbol_of.get(event) == observed:
                    longer.add((target, positions | {(count, self.inside(target))}))
        return longer

    def continued(self, runs, count):
        """The runs, and each with further unobservable transitions, up to the bound."""
        listed, latest = set(runs), runs
        for _ in range(self.automaton.bound()):
            latest = self.extended(latest, None, count) - listed
            listed |= latest
            if self.limit < len(listed):
                raise TooManyRuns()
            if not latest:
                break
        return listed

    def accept(self, symbol):
        """Adds the symbol to the trace, and says so, if some run is compatible with it."""
        n = len(self.trace) + 1
        oldest = n - self.largest
        runs = {
            (end, frozenset(p for p in positions if oldest <= p[0])) for end, positions in self.extended(self.compatible[n - 1], symbol, n)
        }
        if not runs:
            return False
        self.trace.append(symbol)
        self.entered.append({end for end, _ in runs})
        self.compatible[n] = self.continued(runs, n)
        self.compatible.pop(oldest - 1, None)
        return True

    def again(self):
        """The same listing once more, which grows by itself."""
        other = copy.copy(self)
        other.trace, other.entered, other.compatible = list(self.trace), list(self.entered), dict(self.compatible)
        return other

    def longer(self, symbol):
        """A listing by one symbol longer, or None where no run is compatible with it; this one stays as it is."""
        other = self.again()
        return other if other.accept(symbol) else None

    def positions(self, prefix, number):
        """The positions of each run that is compatible with the first symbols of the trace: count, and whether it is in the secret of this number."""
        return {frozenset((count, inside[number]) for count, inside in positions) for _, positions in self.compatible[prefix]}

    def size(self):
        """The estimate size: in how many different states a run that is compatible with the trace ends, unobservable transitions after its last
        observable event included."""
        return len({end for end, _ in self.compatible[len(self.trace)]})

    def weak(self, number=0):
        """The steps of the weak verdict of a secret, or None."""
        n = len(self.trace)
        runs = self.positions(n, number)
        return next((steps for steps in range(min(self.secrets[number].k, n) + 1) if sure_at(runs, n - steps)), None)

    def strong(self, number=0):
        """The steps of the strong verdict of a secret, or None."""
        n = len(self.trace)
        runs = self.positions(n, number)
        return next((steps for steps in range(min(self.secrets[number].k, n) + 1) if sure_from(runs, n - steps)), None)

    def verdicts(self, notion):
        """The verdict of each secret under a notion: 0 is weak, 1 strong."""
        return [(self.weak, self.strong)[notion](number) for number in range(len(self.secrets))]

    def weak_safe_for(self, number, prefix, further=0):
        """Whether the prefix of this length is safe under weak for one secret, or will be with so many further symbols."""
        n, k = len(self.trace) + further, self.secrets[number].k
        counts = range(max(0, n - k), prefix + 1)  # j <= prefix with n - j <= K
        runs = self.positions(prefix, number) if counts else ()
        return not any(sure_at(runs, j) for j in counts)

    def strong_safe_for(self, number, prefix, further=0):
        """The same under strong."""
        n, k = len(self.trace) + further, self.secrets[number].k
        return n - prefix > k or any(
            not any(secret and n - count <= k for count, secret in positions) for positions in self.positions(prefix, number)
        )

    def weak_safe(self, prefix, further=0):
        """Whether the prefix of this length is safe under weak for every secret, or will be with so many further symbols."""
        return all(self.weak_safe_for(number, prefix, further) for number in range(len(self.secrets)))

    def strong_safe(self, prefix, further=0):
        """The same under strong."""
        return all(self.strong_safe_for(number, prefix, further) for number in range(len(self.secrets)))

    def longest(self, safe):
        """The length of the longest safe prefix."""
        return next(prefix for prefix in range(len(self.trace), -1, -1) if safe(prefix))


def sure_at(runs, j):
    """In every run every position of count j is in a secret state."""
    return all(secret for positions in runs for count, secret in positions if count == j)


def sure_from(runs, j):
    """Every run has a position of count at least j in a secret state."""
    return all(any(secret and j <= count for count, secret in positions) for positions in runs)
