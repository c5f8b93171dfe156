"""An exchange: what a client and an origin gave, or why there is nothing of it to be replayed."""

# what is raised where a file of another program is not in the form that it should have
FORM_FAULTS = (AttributeError, KeyError, OverflowError, RecursionError, TypeError, ValueError)
MOST_SAID = 100


class Exchange:
    """The bytes of both sides, and for how many milliseconds each paused before them. `rewritten` says that
    they were no HTTP/1.1 and are written as such here."""

    def __init__(self, client, origin, rewritten=False, client_pause=0, origin_pause=0):
        self.client, self.origin, self.rewritten = client, origin, rewritten
        self.client_pause, self.origin_pause = client_pause, origin_pause


class AskedFor:
    """What is asked for of the exchanges of a file: their pauses, and the hosts that a line is to serve, in lower case,
    whose requests need no answer."""

    def __init__(self, pauses, served):
        self.pauses, self.served = pauses, served


class LeftOut(Exception):
    """Why an exchange is not in the recording."""


def said_of(fault):
    """What is said of such a fault: a line of at most so many characters, whatever the file holds."""
    if isinstance(fault, UnicodeDecodeError):
        return f"byte {fault.start} is no {fault.encoding.upper()}"
    said = repr(fault)
    return said if len(said) <= MOST_SAID else f"{said[:MOST_SAID]} .."


def octets(text):
    """The bytes of a text; those of a file that are no UTF-8 stand for themselves."""
    return text.encode("utf-8", "surrogateescape")
