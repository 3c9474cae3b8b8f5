"""The bytes of tables, headers and saved states (include/opacity.h), of automata and of traces whose runs are listed."""

from runs import Automaton, Secret
from witnesses import Asked

WORDS = 2048
HEADER_BYTES, FURTHER_BYTES, ESTIMATOR_BYTES, JUDGEMENT_BYTES, ENFORCER_BYTES, RELEASE_BYTES, EXPLORATION_BYTES = 46, 28, 172, 9, 206, 2, 4
PLACE_BYTES, SIZE_BYTES, RUN_BYTES, VALID_BYTES = 8, 8, 3, 1
SYMBOLS = 14  # where a header has the symbols
ENTRIES = 16  # where an estimator has its sets of states
SECRETS = 144  # where an estimator has its further secrets
NOTION, PENDING = 172, 173  # where an enforcer has its notion, and the number of its pending symbols, which follow it
FURTHER = 3  # the most further secrets
NONE = 255


def bits(members):
    """A set of numbers as a word."""
    return sum(1 << member for member in members)


def members(word):
    """The numbers of a set that is a word."""
    return {i for i in range(word.bit_length()) if word >> i & 1}


def table_of(automaton):
    """The words of its transitions."""
    words = [0] * WORDS
    for source, event, target in automaton.transitions:
        words[64 * event + source] |= 1 << target
    return words


def header_of(automaton):
    """The rest of it, with 0 as the symbol of every event that is not observable."""
    numbers = bytes((automaton.initial, automaton.k))
    sets = bits(automaton.secret).to_bytes(8, "little") + bits(automaton.observable).to_bytes(4, "little")
    return numbers + sets + bytes(automaton.symbol_of.get(event, 0) for event in range(32))


def observable_of(header):
    """The observable events of a header."""
    return members(int.from_bytes(header[10:14], "little"))


def symbol_at(header, event):
    """The symbol of an event in a header."""
    return header[SYMBOLS + event]


def automaton_of(words, header):
    """The automaton of a table and a header that are within their limits."""
    transitions = [(i % 64, i // 64, target) for i, word in enumerate(words) if word for target in members(word)]
    secret = members(int.from_bytes(header[2:10], "little"))
    return Automaton(63, 31, header[1], header[0], secret, observable_of(header), transitions, header[SYMBOLS:])


def padded(numbers, size):
    """Numbers as bytes, and 0 in the places that are not used."""
    return bytes(numbers) + bytes(size - len(numbers))


def words_bytes(sets):
    """Sets of states, 8 bytes each."""
    return b"".join(bits(states).to_bytes(8, "little") for states in sets)


def secrets_bytes(secrets, count=None):
    """The bytes of further secrets, with 0 in the places behind them. Their number may be said to be another one."""
    places = b"".join(words_bytes([secret.states]) + bytes([secret.k]) for secret in secrets)
    return bytes([len(secrets) if count is None else count]) + padded(places, FURTHER_BYTES - 1)


def places_of(further):
    """The secrets in the three places, given or not."""
    return [Secret(frozenset(members(int.from_bytes(further[at : at + 8], "little"))), further[at + 8]) for at in (1, 10, 19)]


def given_of(further):
    """The secrets that are given, at most three: those before the count."""
    return places_of(further)[: further[0]]


def estimator_bytes(symbols, entries, secrets=()):
    """The bytes of an estimator with these symbols, the newest first, these sets of states, and these further secrets."""
    return bytes([len(symbols)]) + padded(symbols, 15) + padded(words_bytes(entries), 128) + secrets_bytes(secrets)


def with_past(state, other):
    """The bytes of a state, with those of another one in the places past the count of its further secrets."""
    past, end = SECRETS + 1 + 9 * state[SECRETS], SECRETS + FURTHER_BYTES
    return state[:past] + other[past:end] + state[end:]


def cleared(state):
    """The bytes of a state, with 0 past the count of its further secrets, where what stands counts for nothing."""
    return with_past(state, bytes(len(state)))


def grown_estimator(listing):
    """The estimator after the trace of a listing: its last symbols, as many as the largest K, where runs are right after the last symbol of each
    shorter trace, and the further secrets."""
    n = len(listing.trace)
    count = min(listing.largest, n)
    symbols, entries = [listing.trace[n - 1 - l] for l in range(count)], [listing.entered[n - l] for l in range(count + 1)]
    return estimator_bytes(symbols, entries, listing.secrets[1:])


def judgement_bytes(listing):
    """The weak verdict and the strong one of each secret, none in the places that are not given, and the estimate size."""
    told = [steps for number in range(len(listing.secrets)) for steps in (listing.weak(number), listing.strong(number))]
    return bytes(NONE if steps is None else steps for steps in told).ljust(2 * (1 + FURTHER), bytes([NONE])) + bytes([listing.size()])


def exploration_bytes(found):
    """How many configurations an exploration found, lower byte first, and the largest weak wait and the largest strong one."""
    return found.count.to_bytes(2, "little") + bytes((found.weak, found.strong))


def place_bytes(place):
    """The place of a first leak, lowest byte first; 0 where there is none."""
    return (0 if place is None else place).to_bytes(PLACE_BYTES, "little")


def size_bytes(count):
    """How many bytes a canonical form has, lowest byte first."""
    return count.to_bytes(SIZE_BYTES, "little")


def run_bytes(start, pairs):
    """The start of a run, and how many pairs it has, lower byte first."""
    return bytes([start]) + (len(pairs) // 2).to_bytes(2, "little")


def asked_of(automaton, estimator, notion, number, k):
    """What is asked for by the bytes of an estimator within its limits, whether it grew or not: the last k of the symbols that it has, and the set of
    states at place k; or None where the secret is not given, or k is above its K or above the number of symbols."""
    secrets = [Secret(automaton.secret, automaton.k)] + given_of(estimator[SECRETS : SECRETS + FURTHER_BYTES])
    if len(secrets) <= number or min(secrets[number].k, estimator[0]) < k:
        return None
    entry = int.from_bytes(estimator[ENTRIES + 8 * k : ENTRIES + 8 * k + 8], "little")
    return Asked(automaton, notion, secrets[number].states, frozenset(members(entry)), tuple(estimator[k:0:-1]))


def safe_of(listing, notion):
    """The rule by which a prefix is safe: notion 0 is weak, 1 strong."""
    return (listing.weak_safe, listing.strong_safe)[notion]


def wait(safe, prefix):
    """How many further symbols make the prefix safe."""
    further = 0
    while not safe(prefix, further):
        further += 1
    return further


def grown_enforcer(listing, notion):
    """The enforcer after the trace of a listing: what follows the longest safe prefix is pending."""
    safe, n = safe_of(listing, notion), len(listing.trace)
    longest = listing.longest(safe)
    waits = [wait(safe, prefix) for prefix in range(longest + 1, n + 1)]
    return grown_estimator(listing) + bytes((notion, n - longest)) + padded(listing.trace[longest:], 16) + padded(waits, 16)
