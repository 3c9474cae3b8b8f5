"""Mistaken writers of canonical forms (S-9): what each answers and leaves, with an encoding, an output and a size. Stored calls have to tell each.

Most write the encoding of an automaton that is not the one that the form lists; the others go wrong with the room, the count or a refusal.
"""

import copy

from canonical import canonical, needs_symbols, written
from logs import MALFORMED, OUTPUT_TOO_SMALL, decoded, encoded
from saved import SIZE_BYTES, size_bytes

ROOM = bytes(2210)  # for any form


def symbols_of(automaton):
    """A symbol for each event, 0 for those that are not observable."""
    return [automaton.symbol_of.get(event, 0) for event in range(automaton.top_event + 1)]


def as_listed(automaton, others):
    """The automaton as its canonical form lists it, but for what a mistaken program takes for it."""
    listed = copy.copy(automaton)
    vars(listed).update({"transitions": sorted(automaton.transitions)} | others)
    if "symbols" not in others:
        listed.symbols = symbols_of(listed) if needs_symbols(automaton) else None
    return listed


def sorted_by(*places):
    """Sorts transitions by these of from, event and to, in this order, and by no other."""
    return lambda a: {"transitions": sorted(a.transitions, key=lambda transition: [transition[place] for place in places])}


def event_in_front(transition):
    """The transition that is read where the event was written before from."""
    source, event, target = transition
    bits = event << 12 | source << 6 | target
    return bits >> 11, bits >> 6 & 31, bits & 63


def symbols_if(needed):
    """Lists symbols by another rule, over the observable events with their symbols."""
    return lambda a: {"symbols": symbols_of(a) if needed(a, a.symbol_of.items()) else None}


def unobservable(symbol_at):
    """Lists another symbol than 0 for each unobservable event, where symbols are needed."""
    return lambda a: {"symbols": [a.symbol_of.get(e, symbol_at(a, e)) for e in range(a.top_event + 1)] if needs_symbols(a) else None}


def used_states(automaton):
    """The states that transitions name, and the initial state."""
    return {automaton.initial} | {state for source, _, target in automaton.transitions for state in (source, target)}


def used_events(automaton):
    """The events that transitions name."""
    return {event for _, event, _ in automaton.transitions}


# what each takes for something of an automaton
MISTAKEN_LISTS = {
    "transitions as they were": lambda a: {"transitions": a.transitions},
    "transitions turned round": lambda a: {"transitions": a.transitions[::-1]},
    "transitions falling": lambda a: {"transitions": sorted(a.transitions)[::-1]},
    "by event first": sorted_by(1, 0, 2),
    "by to first": sorted_by(2, 0, 1),
    "by to before event": sorted_by(0, 2, 1),
    "by from alone": sorted_by(0),
    "by from and event alone": sorted_by(0, 1),
    "by event and to alone": sorted_by(1, 2),
    "event written before from": lambda a: {"transitions": [event_in_front(transition) for transition in sorted(a.transitions)]},
    "one to for a from and an event": lambda a: {"transitions": sorted({t[:2]: t for t in a.transitions}.values())},
    "the last transition forgotten": lambda a: {"transitions": sorted(a.transitions)[:-1]},
    "at most 255 transitions": lambda a: {"transitions": sorted(a.transitions)[:255]},
    "symbols always": symbols_if(lambda a, shown: True),
    "symbols never": symbols_if(lambda a, shown: False),
    "symbols where some were listed": symbols_if(lambda a, shown: a.symbols is not None),
    "symbols where any event's differs": symbols_if(lambda a, shown: a.symbols not in (None, list(range(a.top_event + 1)))),
    "symbols where every one differs": symbols_if(lambda a, shown: all(e != symbol for e, symbol in shown)),
    "symbols but not for the top event": symbols_if(lambda a, shown: any(e != symbol for e, symbol in shown if e < a.top_event)),
    "symbols but not for event 0": symbols_if(lambda a, shown: any(e != symbol for e, symbol in shown if 0 < e)),
    "symbols where two events share one": symbols_if(lambda a, shown: len({symbol for _, symbol in shown}) < len(shown)),
    "all symbols as they were": lambda a: {"symbols": a.symbols},
    "unobservable events' symbols as they were": unobservable(lambda a, event: a.symbols[event]),
    "unobservable events' symbols their numbers": unobservable(lambda a, event: event),
    "unobservable events' symbols 31": unobservable(lambda a, event: 31),
    "K 0": lambda a: {"k": 0},
    "K of three bits": lambda a: {"k": a.k % 8},
    "initial state 0": lambda a: {"initial": 0},
    "top state: the largest that is used": lambda a: {"top_state": max(used_states(a))},
    "top event: the largest that is used": lambda a: {"top_event": max(used_events(a), default=0)},
    "top event: the same, or observable": lambda a: {"top_event": max(used_events(a) | a.observable, default=0)},
    "no secret state": lambda a: {"secret": ()},
    "secret: of those that are used": lambda a: {"secret": a.secret & used_states(a)},
    "secret: not the top state": lambda a: {"secret": a.secret - {a.top_state}},
    "secret: not the initial state": lambda a: {"secret": a.secret - {a.initial}},
    "secret: of the first 32": lambda a: {"secret": a.secret & set(range(32))},
    "observable: of those that are used": lambda a: {"observable": a.observable & used_events(a)},
    "observable: not the top event": lambda a: {"observable": a.observable - {a.top_event}},
    "observable: every event": lambda a: {"observable": range(a.top_event + 1)},
}


def form_of(others, **layout):
    """The form by a mistaken list, or one that is laid out otherwise."""
    def form(data):
        automaton = decoded(data)
        return encoded(as_listed(automaton, others(automaton)), **layout)

    return form


def said(listed, needed):
    """The form, but that it says whether symbols follow by this bit, where symbols are needed or where they are not."""
    return lambda data: form_of(lambda a: {}, listed=listed)(data) if needs_symbols(decoded(data)) == needed else canonical(data)


padding_of_1 = form_of(lambda a: {}, padding=127)

# what each writes for an encoding
MISTAKEN_FORMS = {name: form_of(others) for name, others in MISTAKEN_LISTS.items()} | {
    "padding of 1": padding_of_1,
    "symbols said and not listed": said(1, False),
    "symbols listed and not said": said(0, True),
    "a byte too few": lambda data: canonical(data)[:-1],
    "a byte too many": lambda data: canonical(data) + b"\0",
    "a byte too many without padding": lambda data: canonical(data) + bytes(padding_of_1(data) == canonical(data)),
}


def with_form(form):
    """The writer of another form."""
    return lambda *lent: written(*lent, form)


def with_room(too_small):
    """The writer that gives 10 by another rule, and else writes what there is room for."""
    def writer(encoding, output, size):
        answer, whole, count = written(encoding, ROOM, size)
        if answer:
            return answer, output, size
        form = whole[: int.from_bytes(count, "little")]
        if too_small(encoding, output, form):
            return OUTPUT_TOO_SMALL, output, size
        return 0, form[: len(output)] + output[len(form) :], count

    return writer


def goes_on(change):
    """The writer that, where it accepts, changes the output and the size: the lent ones, and what was written."""
    def writer(encoding, output, size):
        answer, whole, count = written(encoding, output, size)
        return (answer, whole, count) if answer else (0, *change(encoding, output, size, whole, int.from_bytes(count, "little")))

    return writer


def counts(count_of):
    """The writer that leaves other bytes at the front of the size."""
    def change(encoding, output, size, whole, count):
        data = count_of(encoding, output, count)
        return whole, data + size[len(data) :]

    return goes_on(change)


def clears(most):
    """The writer that clears at most so many bytes of the output behind the form."""
    def change(encoding, output, size, whole, count):
        return whole[:count] + bytes(len(whole[count : count + most])) + whole[count + most :], size_bytes(count)

    return goes_on(change)


def old_padding(encoding, output, size, whole, count):
    """What was in the output stays in the padding."""
    free = whole[count - 1] ^ padding_of_1(encoding)[-1]
    return whole[: count - 1] + bytes([whole[count - 1] | output[count - 1] & free]) + whole[count:], size_bytes(count)


def either_bit(encoding, output, size, whole, count):
    """A bit that was 1 in the output stays so."""
    return bytes(new | old for new, old in zip(whole, output)), size_bytes(count)


def refusing(change):
    """The writer that, where it refuses, changes the output and the size, by the answer and by the form, if there is one."""
    def writer(encoding, output, size):
        answer, whole, count = written(encoding, output, size)
        if answer == 0:
            return answer, whole, count
        fault, room, needed = written(encoding, ROOM, bytes(SIZE_BYTES))
        return (answer, *change(answer, output, size, b"" if fault else room[: int.from_bytes(needed, "little")]))

    return writer


def passing(number):
    """The writer that answers 0 where it ought to refuse by this number."""
    def writer(*lent):
        answer, output, size = written(*lent)
        return 0 if answer == number else answer, output, size

    return writer


def room_first(encoding, output, size):
    """10 comes before the refusals of the encoding: where the output is shorter than the encoding."""
    answer, whole, count = written(encoding, output, size)
    return OUTPUT_TOO_SMALL if answer not in (0, MALFORMED) and len(output) < len(encoding) else answer, whole, count


def size_after_encoding(encoding, output, size):
    """9 comes behind the refusals of the encoding."""
    answer = written(encoding, ROOM, bytes(SIZE_BYTES))[0]
    return (answer, output, size) if answer else written(encoding, output, size)


def size_last(encoding, output, size):
    """9 comes behind all others."""
    answer = written(encoding, output, bytes(SIZE_BYTES))[0]
    return (answer, output, size) if answer else written(encoding, output, size)


def longer_size(encoding, output, size):
    """More than 8 bytes are taken for the size."""
    answer, whole, count = written(encoding, output, size[:SIZE_BYTES])
    return answer, whole, count + size[SIZE_BYTES:]


def shorter_size(encoding, output, size):
    """Fewer than 8 bytes are taken for the size, and as many are written."""
    answer, whole, count = written(encoding, output, size if SIZE_BYTES < len(size) else size.ljust(SIZE_BYTES, b"\0"))
    return answer, whole, count[: len(size)]


# what each answers and leaves
MISTAKEN_WRITERS = {name: with_form(form) for name, form in MISTAKEN_FORMS.items()} | {
    "padding as it was": goes_on(old_padding),
    "no bit made 0": goes_on(either_bit),
    "10 under 2,210 bytes": with_room(lambda encoding, output, form: len(output) < 2210),
    "10 under 17 bytes": with_room(lambda encoding, output, form: len(output) < max(17, len(form))),
    "10 under the encoding's bytes": with_room(lambda encoding, output, form: len(output) < len(encoding)),
    "10 for a byte too many": with_room(lambda encoding, output, form: len(output) != len(form)),
    "10 for just enough": with_room(lambda encoding, output, form: len(output) <= len(form)),
    "10 not for a byte too few": with_room(lambda encoding, output, form: len(output) + 1 < len(form)),
    "10 turned round": with_room(lambda encoding, output, form: len(form) < len(output)),
    "10 for no byte alone": with_room(lambda encoding, output, form: not output),
    "10 never": with_room(lambda encoding, output, form: False),
    "10 before the encoding's": room_first,
    "the rest is cleared": clears(4096),
    "a byte behind the form is cleared": clears(1),
    "the count one more": counts(lambda encoding, output, count: size_bytes(count + 1)),
    "the count one less": counts(lambda encoding, output, count: size_bytes(count - 1)),
    "the count of the encoding's bytes": counts(lambda encoding, output, count: size_bytes(len(encoding))),
    "the count of the output's bytes": counts(lambda encoding, output, count: size_bytes(len(output))),
    "the count of bits": counts(lambda encoding, output, count: size_bytes(8 * count)),
    "the count's high byte first": counts(lambda encoding, output, count: size_bytes(count)[::-1]),
    "the count's low byte alone": counts(lambda encoding, output, count: size_bytes(count % 256)),
    "two bytes of the count written": counts(lambda encoding, output, count: size_bytes(count)[:2]),
    "no count": counts(lambda encoding, output, count: b""),
    "10, and what fits is written": refusing(lambda answer, output, size, form: (form[: len(output)] if answer == 10 else output, size)),
    "10, and the count is written": refusing(lambda answer, output, size, form: (output, size_bytes(len(form)) if answer == 10 else size)),
    "a refused output is cleared": refusing(lambda answer, output, size, form: (bytes(len(output)), size)),
    "a refused size is cleared": refusing(lambda answer, output, size, form: (output, bytes(len(size)))),
    "9 behind the encoding's": size_after_encoding,
    "9 behind all": size_last,
    "a longer size": longer_size,
    "a shorter size": shorter_size,
    **{f"{number} never": passing(number) for number in (1, 3, 4, 5, 9, 12)},
}


def told(lent):
    """For each mistaken writer, by how many of these calls it is told: each an encoding, an output and a size."""
    right = [written(*slices) for slices in lent]
    return {name: sum(writer(*slices) != left for slices, left in zip(lent, right)) for name, writer in MISTAKEN_WRITERS.items()}
