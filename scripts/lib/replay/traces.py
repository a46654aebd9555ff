"""A trace as a schedule: the job `steps` makes the calls of a live run again, in their order."""

from .. import documents

SEPARATOR = documents.SEPARATOR.encode()
TRACE = b"--- trace ---\n"
LONGEST = 1_048_576  # bytes of a document, with its trace
LOOP, CLOSE, TOLD = b"loop ", b"loop close", b"told"


def with_trace(document, trace):
    """A document with this trace behind its script."""
    return document + (b"" if document.endswith(b"\n") else b"\n") + TRACE + trace


def session_of(line):
    """The name of the session whose line this is, or None if it is the loop's."""
    return None if line.startswith(LOOP) else line.split(b" ", 1)[0]


def before_close(lines):
    """The lines up to the close of the loop."""
    return lines[: next((number for number, line in enumerate(lines) if line.startswith(CLOSE)), len(lines))]


def turn_of(line):
    session = session_of(line)
    return b"step " + session if session else line.split(b" ", 2)[1]


def scheduled(document, lines):
    """The document with a schedule that makes the calls of these lines. It must have none of its own."""
    turns = b"".join(turn_of(line) + b"\n" for line in before_close(lines))
    return document.rstrip(b"\n") + b"\nschedule\n" + turns


def calls_of(lines):
    """The calls of each session in their order, without what it asked for its tickets."""
    calls = {}
    for line in lines:
        session, call = session_of(line), line.split(b": ", 1)[0].split(b" ")[1:]
        if session and call[:1] != [TOLD]:
            calls.setdefault(session, []).append(b" ".join(call))
    return calls


def aloft(lines):
    """How many lines of sessions came while a cycle was aloft."""
    count, is_aloft = 0, False
    for line in lines:
        if line.startswith(LOOP):
            is_aloft = line.startswith(b"loop begin")
        else:
            count += is_aloft
    return count
