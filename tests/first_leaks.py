"""The first leak of a list of offered bytes (S-8), and what the programs that look for it print, from the definitions.

Offered bytes are accepted, or passed over, as a log does: one that is no symbol of an observable event, or such that no run is compatible with the
trace and it behind it, is passed over. The accepted ones have places, counted from 1. What is asked for is the place of the first of them after which
the verdict of some secret is a leak under the notion. The opening has no place, and what is offered behind that event is not looked at.
"""

from logs import Refused, refused_line, started, steps


def leaks(listing, notion):
    """Whether some secret has a leak under a notion, 0 weak or 1 strong, after the trace of a listing."""
    return any(verdict is not None for verdict in listing.verdicts(notion))


def first_leak(opening, notion, offered):
    """The place of the first leak, or None, from the listing of the empty trace on, which stays as it is. (A byte that is no symbol of an observable
    event is that of no transition, so that no run is compatible with it.)"""
    listing = opening.again()
    for byte in offered:
        if listing.accept(byte) and leaks(listing, notion):
            return len(listing.trace)
    return None


def leak_output(log, notion):
    """What the program for a notion prints for the bytes of a log."""
    try:
        opening, offered = started(log)
    except Refused as refused:
        return refused_line(refused)
    return f"{steps(first_leak(opening, notion, offered))}\n"
