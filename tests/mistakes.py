"""Mistaken programs: what they would judge by, or find, or answer. Random automata are chosen so that they are told by it."""

from explorations import Exploration, configuration, explored, reached, waits_of
from first_leaks import first_leak, leaks
from generate import random_automaton, random_offers, random_secrets, with_secret, with_symbols
from runs import Listing, TooManyRuns


def mistaken(automaton, secrets):
    """Other secrets that a mistaken program would judge by: with the largest K for each, with the automaton's own for each, without the last one."""
    largest = max([automaton.k] + [given.k for given in secrets])
    with_largest = with_symbols(automaton, automaton.symbols, largest), tuple(given._replace(k=largest) for given in secrets)
    with_own = automaton, tuple(given._replace(k=automaton.k) for given in secrets)
    return with_largest, with_own, (automaton, secrets[:-1])


# explorations


def without_opening(opening):
    """What an exploration finds that does not judge the opening."""
    listings = reached(opening)
    waits = listings and [(0, 0)] + [waits_of(listing) for listing in listings[1:]]
    return listings and Exploration(len(listings), max(weak for weak, _ in waits), max(strong for _, strong in waits))


def sets_alone(listing):
    """A configuration without its symbols."""
    return configuration(listing)[1]


def without_oldest(listing):
    """A configuration without the set for the symbol before its symbols."""
    return configuration(listing)[0], configuration(listing)[1][:-1]


def possible(listing):
    """A configuration with the unobservable transitions that follow each symbol."""
    count = len(configuration(listing)[1])
    ends = ({end for end, _ in listing.compatible[len(listing.trace) - back]} for back in range(count))
    return configuration(listing)[0], tuple(map(frozenset, ends))


def mistaken_exploration(kind, automaton, secrets):
    """What a mistaken program would find: one that judges other secrets, or by events and not by symbols, that takes one notion for the other, leaves
    out the opening, or takes different configurations for one."""
    opening = Listing(automaton, secrets, 300)
    if kind < 3:
        return explored(Listing(*mistaken(automaton, secrets)[kind], 300))
    if kind == 3:
        return explored(Listing(with_symbols(automaton, None), secrets, 300))
    if kind == 4:
        found = explored(opening)
        return found._replace(weak=found.strong, strong=found.weak)
    return without_opening(opening) if kind == 5 else explored(opening, key=(sets_alone, without_oldest, possible)[kind - 6])


# first leaks: what each answers for a listing of the empty trace, a notion and offered bytes


def judged(opening, notion, offered):
    """For each offered byte the verdict of each secret after it, or None where it is refused."""
    listing = opening.again()
    return [listing.verdicts(notion) if listing.accept(byte) else None for byte in offered]


def leaking(told):
    """Which bytes leak, the first being number 0."""
    return [at for at, verdicts in enumerate(told) if verdicts and verdicts.count(None) < len(verdicts)]


def count_offered(opening, notion, offered):
    """Counts every offered byte."""
    return next((at + 1 for at in leaking(judged(opening, notion, offered))), None)


def count_symbols(opening, notion, offered):
    """Counts a refused byte that is a symbol."""
    symbols = opening.automaton.symbol_of.values()
    return next((sum(byte in symbols for byte in offered[: at + 1]) for at in leaking(judged(opening, notion, offered))), None)


def count_from_nought(opening, notion, offered):
    """The first accepted byte has the place 0."""
    place = first_leak(opening, notion, offered)
    return None if place is None else place - 1


def stop_at_refused(opening, notion, offered):
    """Goes no further than the first refused byte."""
    told = judged(opening, notion, offered)
    return first_leak(opening, notion, offered[: told.index(None)] if None in told else offered)


def last_one(opening, notion, offered):
    """The last leak, not the first."""
    told = judged(opening, notion, offered)
    return next((at + 1 - told[:at].count(None) for at in reversed(leaking(told))), None)


def other_notion(opening, notion, offered):
    """Takes one notion for the other."""
    return first_leak(opening, 1 - notion, offered)


def opening_is_none(opening, notion, offered):
    """Ends at an opening that leaks, whose place it calls 0, as if there were none."""
    return None if leaks(opening, notion) else first_leak(opening, notion, offered)


def opening_is_first(opening, notion, offered):
    """Ends at an opening that leaks, whose place it calls 1."""
    return 1 if leaks(opening, notion) else first_leak(opening, notion, offered)


def leak_now(opening, notion, offered):
    """Takes no leak that is steps back."""
    told = [verdicts for verdicts in judged(opening, notion, offered) if verdicts]
    return next((place for place, verdicts in enumerate(told, 1) if 0 in verdicts), None)


def by_events(opening, notion, offered):
    """Goes by events and not by symbols."""
    return first_leak(Listing(with_symbols(opening.automaton, None), opening.secrets[1:], opening.limit), notion, offered)


def own_secret(opening, notion, offered):
    """Judges the automaton's own secret alone."""
    return first_leak(Listing(opening.automaton, (), opening.limit), notion, offered)


def every_secret(opening, notion, offered):
    """Wants a leak of every secret."""
    told = [verdicts for verdicts in judged(opening, notion, offered) if verdicts]
    return next((place for place, verdicts in enumerate(told, 1) if None not in verdicts), None)


def by_secrets(kind):
    """Judges each secret by the largest K, or by the automaton's own, or forgets the last one."""
    return lambda opening, notion, offered: first_leak(Listing(*mistaken(opening.automaton, opening.secrets[1:])[kind], opening.limit), notion, offered)


# those that one secret tells, and those that several are needed for
OF_ONE = (
    count_offered, count_symbols, count_from_nought, stop_at_refused, last_one, other_notion, opening_is_none, opening_is_first, leak_now, by_events,
)
OF_SEVERAL = own_secret, every_secret, by_secrets(0), by_secrets(1), by_secrets(2)


def told_by(mistake, opening, notion, offered, least=0):
    """Whether the answer, which is at least so large, tells a mistaken program. (None is written as 0.)"""
    place = first_leak(opening, notion, offered) or 0
    return least <= place != (mistake(opening, notion, offered) or 0)


def search_case(rng, mistake=None, least=0, several=True):
    """The listing of an automaton's empty trace, some with further secrets, and bytes to offer: any, or such that a mistaken program is told under a
    notion by a place that is at least so large."""
    while True:
        automaton = random_automaton(rng)
        if rng.random() < 0.3:
            automaton = with_secret(automaton, automaton.secret | {automaton.initial})
        secrets = random_secrets(rng, automaton) if several and rng.random() < 0.7 else ()
        offered = random_offers(rng, automaton, rng.choice((2, 4, 6, 8, 12, 20)), rng.choice((0, 0.12, 0.4)))
        opening = Listing(automaton, secrets, 100)
        try:
            if mistake is None or any(told_by(mistake, opening, notion, offered, least) for notion in (0, 1)):
                judged(opening, 0, offered)
                return opening, offered
        except TooManyRuns:
            continue
