"""Random small automata and logs, valid and damaged. All of it depends on the random numbers that are passed in, and on nothing else."""

import copy

from logs import encoded, output
from runs import Automaton, Secret, TooManyRuns


def random_symbols(rng, top_event, observable):
    """A symbol for each event, or none listed: own numbers, numbers of other events, any, or some that events share. Those of unobservable events say
    anything."""
    events = range(top_event + 1)
    few = rng.sample(range(32), 2)
    kinds = (list(events), rng.sample(events, len(events)), rng.sample(range(32), len(events)))
    shared = rng.choice(([rng.choice(events) for _ in events], [rng.choice(few) for _ in events], [few[0]] * len(events)))
    if 1 < len(observable):
        one, other = rng.sample(sorted(observable), 2)
        shared[one] = shared[other]
    chosen = rng.choice((None, rng.choice(kinds), shared, shared))
    if chosen is None:
        return None
    return [chosen[e] if e in observable else rng.choice((rng.choice(chosen), rng.randrange(32))) for e in events]


def random_transitions(rng, states, used, events, unobservable, alike):
    """Different transitions into the first `used` states: some from each state, and more of the kinds that matter. `alike` are observable events with
    one symbol."""
    transitions = []
    for source in range(states):
        for _ in range(rng.choice((0, 1, 1, 2, 2, 3))):
            transitions.append((source, rng.randrange(events), rng.randrange(used)))
    if unobservable and rng.random() < 0.4:  # a cycle that nobody observes
        around = rng.sample(range(used), rng.randrange(1, used + 1))
        transitions += [(q, rng.choice(unobservable), around[i - 1]) for i, q in enumerate(around)]
    if rng.random() < 0.3:  # one event that may lead anywhere
        source, event = rng.randrange(used), rng.randrange(events)
        transitions += [(source, event, target) for target in range(used)]
    if 1 < len(alike) and rng.random() < 0.7:  # a state that each of them leaves
        source = rng.randrange(used)
        transitions += [(source, event, rng.randrange(used)) for event in alike]
    transitions = list(dict.fromkeys(transitions))
    rng.shuffle(transitions)
    return transitions


def many_transitions(rng, count):
    """So many different transitions of 64 states and 32 events, in no order."""
    return [(number // 2048, number // 64 % 32, number % 64) for number in rng.sample(range(64 * 32 * 64), count)]


def random_automaton(rng):
    """An automaton with one to four states, not all of which need be reached, and one to four events."""
    states, events = rng.choice((1, 2, 2, 3, 3, 3, 4, 4, 4)), rng.choice((1, 2, 2, 3, 3, 4, 4))
    used = rng.choice((states, states, states, max(1, states - 1)))
    often = rng.choice((0.4, 0.7, 0.9))
    observable = {e for e in range(events) if rng.random() < often} or {0}
    if rng.random() < 0.03:
        observable = set()
    symbols = random_symbols(rng, events - 1, observable)
    one = rng.choice([symbols[e] for e in sorted(observable)]) if symbols and observable else None
    alike = [e for e in sorted(observable) if symbols and symbols[e] == one]
    transitions = random_transitions(rng, states, used, events, [e for e in range(events) if e not in observable], alike)
    dense = rng.choice((0.2, 0.4, 0.6, 0.8))
    secret = {q for q in range(states) if rng.random() < dense}
    initial = rng.randrange(used)
    if rng.random() < 0.85:
        secret.discard(initial)
    k = rng.choice((0, 0, 1, 1, 2, 2, 3, 4, 5, rng.randrange(16), 15))
    automaton = Automaton(states - 1, events - 1, k, initial, secret, observable, transitions, symbols)
    return relabelled(rng, automaton) if rng.random() < 0.25 else automaton


def random_secrets(rng, automaton):
    """One to three further secrets: any states, the automaton's own, those of another one with some more or fewer, or none; each with a K that is
    smaller, larger or the same."""
    numbers, secrets = range(automaton.top_state + 1), []
    for _ in range(rng.choice((1, 2, 2, 3, 3, 3))):
        other = rng.choice([automaton.secret] + [given.states for given in secrets])
        any_states = {q for q in numbers if rng.random() < rng.choice((0.3, 0.6))}
        states = rng.choice((any_states, any_states, automaton.secret, other, set(other) ^ {rng.choice(numbers)}, set(other) | any_states, ()))
        if rng.random() < 0.8:
            states = set(states) - {automaton.initial}
        near = min(15, automaton.k + 1)
        secrets.append(Secret(frozenset(states), rng.choice((0, 1, 2, 3, max(0, automaton.k - 1), automaton.k, near, rng.randrange(16)))))
    return tuple(secrets)


def wide_automaton(rng):
    """An automaton with up to 64 states, whose estimates get large. Its K is small: the listing grows with it."""
    states, events = rng.choice((9, 20, 33, 50, 64)), rng.choice((2, 3, 4))
    observable = set(rng.sample(range(events), rng.randrange(1, events)))
    count = rng.choice((1, 2, 4, 8)) * states
    transitions = sorted({(rng.randrange(states), rng.randrange(events), rng.randrange(states)) for _ in range(count)})
    rng.shuffle(transitions)
    initial = rng.randrange(states)
    secret = set(rng.sample(range(states), rng.randrange(states // 2))) - {initial}
    symbols = random_symbols(rng, events - 1, observable)
    return Automaton(states - 1, events - 1, rng.choice((0, 0, 1, 1, 2)), initial, secret, observable, transitions, symbols)


def relabelled(rng, automaton):
    """The same with state numbers up to 63 and event numbers up to 31, and states and events beside them that no transition uses."""
    state = rng.sample(range(64), automaton.top_state + 1)
    event = rng.sample(range(32), automaton.top_event + 1)
    top_state, top_event = rng.choice((63, max(state))), rng.choice((31, max(event)))
    unused = [q for q in range(top_state + 1) if q not in state]
    unnamed = [e for e in range(top_event + 1) if e not in event]
    symbols = None
    if automaton.symbols:
        symbol = rng.choice((range(32), event + [n for n in range(32) if n not in event]))
        listed = {event[e]: symbol[automaton.symbols[e]] for e in range(automaton.top_event + 1)}
        symbols = [listed[e] if e in listed else rng.randrange(32) for e in range(top_event + 1)]
    return Automaton(
        top_state,
        top_event,
        automaton.k,
        state[automaton.initial],
        {state[q] for q in automaton.secret} | set(rng.sample(unused, rng.randrange(len(unused) + 1))),
        {event[e] for e in automaton.observable} | set(rng.sample(unnamed, min(len(unnamed), rng.choice((0, 0, 1, 3))))),
        [(state[source], event[e], state[target]) for source, e, target in automaton.transitions],
        symbols,
    )


def random_trace(rng, automaton, count):
    """The symbols of the observable events of a random run, at most `count`."""
    trace, at = [], automaton.initial
    for _ in range(4 * count):
        if len(trace) == count or at not in automaton.leaving:
            break
        event, at = rng.choice(automaton.leaving[at])
        if event in automaton.observable:
            trace.append(automaton.symbol_of[event])
    return trace


def random_byte(rng, automaton):
    """The number of an event, or the symbol of one, observable or not; or that number with higher bits, or any byte."""
    numbers = rng.choice((range(automaton.top_event + 1), automaton.symbols or [0]))
    return rng.choice((rng.choice(numbers), rng.choice(numbers), rng.choice(numbers) + 32 * rng.randrange(8), rng.randrange(256)))


def random_offers(rng, automaton, count, often=0.12):
    """A random trace, with other bytes among its symbols, more or less often, which need be no symbols, or cannot follow."""
    offered = bytearray()
    for symbol in random_trace(rng, automaton, count) + [None]:
        while rng.random() < often:
            offered.append(random_byte(rng, automaton))
        if symbol is not None:
            offered.append(symbol)
    if not offered and rng.random() < 0.9:
        offered.append(random_byte(rng, automaton))
    return bytes(offered)


def with_length(encoding, offered, off=0):
    """A log, whose length says `off` more than the encoding (01: description) has."""
    length = max(0, min(65535, len(encoding) + off))
    return bytes((length // 256, length % 256)) + encoding + offered


def cut(rng, automaton, offered):
    """The log ends anywhere."""
    log = with_length(encoded(automaton), offered)
    return log[: rng.randrange(len(log) + 1)]


def symbol_bit(rng, automaton, offered):
    """The bit that says whether symbols follow says the opposite."""
    return with_length(encoded(automaton, listed=int(automaton.symbols is None)), offered)


def cut_symbols(rng, automaton, offered):
    """The encoding ends right before its symbols or inside them, where it has any, and its length says so."""
    if not automaton.symbols:
        return with_length(encoded(automaton), offered)
    start = 32 + automaton.top_state + 1 + automaton.top_event + 1
    size = rng.randrange(start // 8, (start + 5 * len(automaton.symbols) - 1) // 8 + 1)
    return with_length(encoded(automaton)[:size], offered)


def wrong_count(rng, automaton, offered):
    """There is a symbol too few or too many, where there are any."""
    other = copy.copy(automaton)
    if other.symbols:
        other.symbols = rng.choice((other.symbols[1:], other.symbols + [rng.randrange(32)]))
    return with_length(encoded(other), offered)


def padding_bits(rng, automaton, offered):
    """Padding bits are 1, where there are any."""
    return with_length(encoded(automaton, padding=rng.randrange(1, 128)), offered)


def further_bytes(rng, automaton, offered):
    """The encoding has bytes after its end."""
    return with_length(encoded(automaton) + bytes(rng.randrange(2) for _ in range(rng.randrange(1, 4))), offered)


def wrong_length(rng, automaton, offered):
    """The length says more or less than the encoding has."""
    return with_length(encoded(automaton), offered, rng.choice((-2, -1, 1, 2, rng.randrange(-20, 200), 65535)))


def short_encoding(rng, automaton, offered):
    """The encoding ends early, and its length says so."""
    encoding = encoded(automaton)
    return with_length(encoding[: rng.randrange(len(encoding))], offered)


def flipped_bits(rng, automaton, offered):
    """Some bits of the encoding are turned over."""
    encoding = bytearray(encoded(automaton))
    for _ in range(rng.randrange(1, 4)):
        encoding[rng.randrange(len(encoding))] ^= 1 << rng.randrange(8)
    return with_length(bytes(encoding), offered)


def with_transitions(automaton, transitions, initial=None):
    """The automaton with other transitions, which need not be different, and perhaps another initial state."""
    first = automaton.initial if initial is None else initial
    tops = automaton.top_state, automaton.top_event
    return Automaton(*tops, automaton.k, first, automaton.secret, automaton.observable, transitions, automaton.symbols)


def with_symbols(automaton, symbols, k=None):
    """The automaton with other symbols, or with none listed, and perhaps another K."""
    tops, back = (automaton.top_state, automaton.top_event), automaton.k if k is None else k
    return Automaton(*tops, back, automaton.initial, automaton.secret, automaton.observable, automaton.transitions, symbols)


def with_secret(automaton, secret):
    """The automaton with other secret states."""
    tops = automaton.top_state, automaton.top_event
    return Automaton(*tops, automaton.k, automaton.initial, secret, automaton.observable, automaton.transitions, automaton.symbols)


def with_other(automaton, **others):
    """The automaton with something else in it, by its name."""
    names = "top_state", "top_event", "k", "initial", "secret", "observable", "transitions", "symbols"
    return Automaton(**({name: getattr(automaton, name) for name in names} | others))


def spelled(rng, automaton):
    """The same automaton, with its transitions in any order, perhaps with symbols that need not be listed, and any symbols of unobservable events."""
    symbols = automaton.symbols or rng.choice((None, range(automaton.top_event + 1)))
    if symbols is not None:
        symbols = [symbol if event in automaton.observable else rng.randrange(32) for event, symbol in enumerate(symbols)]
    return with_other(automaton, transitions=rng.sample(automaton.transitions, len(automaton.transitions)), symbols=symbols)


def out_of_range(rng, automaton, offered):
    """A state or an event is above the top one, where its field has room for such a number."""
    initial, transitions = automaton.initial, [list(t) for t in automaton.transitions]
    place = rng.randrange(4)
    top, most = (automaton.top_event, 31) if place == 2 else (automaton.top_state, 63)
    number = rng.randrange(min(most, top + 1), most + 1)
    if place == 0:
        initial = number
    elif transitions:
        rng.choice(transitions)[place - 1] = number
    return with_length(encoded(with_transitions(automaton, [tuple(t) for t in transitions], initial)), offered)


def with_repeat(automaton, first, distance):
    """The automaton with one of its transitions listed a second time, so many places after the first."""
    transitions = list(automaton.transitions)
    transitions.insert(first + distance, transitions[first])
    return with_transitions(automaton, transitions)


def random_repeat(rng, automaton):
    """The automaton with one of its transitions listed a second time, anywhere behind the first; without transitions as it is."""
    count = len(automaton.transitions)
    if not count:
        return automaton
    first = rng.randrange(count)
    return with_repeat(automaton, first, rng.randrange(1, count - first + 1))


def repeated(rng, automaton, offered):
    """A transition is listed twice, where there are any."""
    return with_length(encoded(random_repeat(rng, automaton)), offered)


def repeated_and_damaged(rng, automaton, offered):
    """A transition is listed twice, and the encoding is damaged anywhere, before the second or behind it."""
    damage = rng.choice((padding_bits, further_bytes, short_encoding, flipped_bits, out_of_range, repeated, symbol_bit))
    return damage(rng, random_repeat(rng, automaton), offered)


def any_bytes(rng, automaton, offered):
    """No log at all."""
    return bytes(rng.randrange(256) for _ in range(rng.randrange(40)))


DAMAGES = (
    cut,
    symbol_bit,
    cut_symbols,
    wrong_count,
    padding_bits,
    further_bytes,
    wrong_length,
    short_encoding,
    flipped_bits,
    out_of_range,
    repeated,
    repeated_and_damaged,
    repeated_and_damaged,
    any_bytes,
)


# those of the encoding alone
ENCODING_DAMAGES = (
    symbol_bit,
    cut_symbols,
    wrong_count,
    padding_bits,
    further_bytes,
    short_encoding,
    flipped_bits,
    flipped_bits,
    out_of_range,
    any_bytes,
    repeated,
    repeated_and_damaged,
)


def large_automaton(rng):
    """An automaton with up to 64 states and 32 events, and up to 1,023 transitions, more often as many as there can be."""
    states, events = rng.choice((64, 64, 33, 5)), rng.choice((32, 32, 17, 3))
    most = min(1023, states * events * states)
    numbers = rng.sample(range(states * events * states), rng.choice((most, most, rng.randrange(most))))
    transitions = [(number // states // events, number // states % events, number % states) for number in numbers]
    secret, observable = (set(rng.sample(range(count), rng.randrange(count + 1))) for count in (states, events))
    symbols = random_symbols(rng, events - 1, observable)
    return Automaton(states - 1, events - 1, rng.randrange(16), rng.randrange(states), secret, observable, transitions, symbols)


def too_long(rng, encoding):
    """An encoding with so many bytes behind it that there are more than the longest one has."""
    more = max(1, rng.choice((2211, 2211, 2212, 4096, 4097, 8192, 8193, rng.randrange(2211, 9001))) - len(encoding))
    return encoding + rng.choice((bytes(more), b"\xff" * more, rng.randbytes(more)))


def random_encoding(rng):
    """An encoding by itself, of an automaton that is small, wide or large. One of four is damaged, and one of eight is too long."""
    kind = rng.random()
    automaton = spelled(rng, (large_automaton if kind < 0.125 else wide_automaton if kind < 0.25 else random_automaton)(rng))
    encoding = rng.choice(ENCODING_DAMAGES)(rng, automaton, b"")[2:] if rng.random() < 0.25 else encoded(automaton)
    return too_long(rng, encoding) if rng.random() < 0.125 else encoding


def idle_log(rng):
    """A log without event bytes. Of the automata with an unobservable event half start in a secret state that may be left unobserved, for any other."""
    automaton = random_automaton(rng)
    unobservable = [e for e in range(automaton.top_event + 1) if e not in automaton.observable]
    if unobservable and rng.random() < 0.5:
        leaving = automaton.initial, rng.choice(unobservable), rng.randrange(automaton.top_state + 1)
        transitions = list(dict.fromkeys([*automaton.transitions, leaving]))
        automaton = with_secret(with_transitions(automaton, transitions), automaton.secret | {automaton.initial})
    return with_length(encoded(automaton), b"")


def random_log(rng, printed=output):
    """The bytes of a log, and what the log program, or another one, prints for them. One of eight is idle, and one of sixteen has many states."""
    kind = rng.random()
    if kind < 0.125:
        return cut_to_size(idle_log(rng), printed)
    automaton = wide_automaton(rng) if 0.9375 <= kind else random_automaton(rng)
    offered = random_offers(rng, automaton, rng.choice((1, 2, 3, 4, 5, 6, 6, 8, 12, 24, 40)))
    log = with_length(encoded(automaton), offered)
    if rng.random() < 0.25:
        log = rng.choice(DAMAGES)(rng, automaton, offered)
    return cut_to_size(log, printed)


def cut_to_size(log, printed):
    """The log, cut to so few symbols that its runs can be listed, and what the program prints for it."""
    while True:
        try:
            return log, printed(log)
        except TooManyRuns:
            log = log[: len(log) * 7 // 8]
