"""A session and a stream, cut at every length or damaged in one byte, and the report on each."""

from tables import content_of, log_of
from sessions import frame

# A session from the handshake to the exit, with a document and a snapshot of it.
SESSION = """START
E OPEN 1 "ab"
T 1 "ab"
E SH
S RES 2
E EX"""

# The records of that session: the numbers of the first and the last of a kind, the bytes of each,
# and the verdict between two of them if it is not yes.
RECORDS = [
    (1, 1, 103, ""),
    (2, 2, 101, ""),
    (3, 3, 80, ""),
    (4, 4, 166, ""),
    (5, 5, 21, ""),
    (6, 6, 86, ""),
    (7, 7, 66, ""),
    (8, 8, 61, ""),
]

# The same where its frames are cut into records of one byte.
RECORDS_OF_ONE_BYTE = [
    (1, 97, 6, "no 107 editor 1 event 1"),
    (98, 192, 6, "no 107 server 1 event 2"),
    (193, 266, 6, "no 107 editor 2 event 3"),
    (267, 425, 6, "no 107 editor 3 event 4"),
    (426, 426, 21, ""),
    (427, 506, 6, "no 107 editor 4 event 6"),
    (507, 566, 6, "no 107 server 2 event 7"),
    (567, 621, 6, "no 107 editor 5 event 8"),
]

# How many bytes the first line of a log has.
FIRST_LINE = 14

# A session whose last change differs from a snapshot that waits for it.
DIFFERENT = """START
E OPEN 3 "a"
T 5 "b"
E CHG 5 / FULL "c\""""

DIFFERS = "no 702 editor 4 event 6"

# A request before the handshake, and 64 bytes that are not a record.
TOO_EARLY = "HEAD\nE REQ 7\n+ " + 64 * "X"

TOO_EARLY_REPORT = b"no 401 editor 1 event 1\neditor message before initialize\n"

# The frames that the editor sends in the session, and the line that `frames` writes for each.
FRAMES = [("I 1", "1 75"), ("N1", "2 52"), ('OPEN 1 "ab"', "3 136"), ("SH", "4 58"), ("EX", "5 33")]

# What a byte is replaced by.
BYTES = [0x00, 0x0A, 0x7B, 0xFF]


def verdicts(records):
    """The first line of the report on a log of these records, for each shorter length."""
    yield from ["bad log L1 record 0"] * FIRST_LINE
    for first, last, size, between in records:
        for record in range(first, last + 1):
            yield "yes" if record == first or not between else between
            yield from [f"bad log L4 record {record}"] * (size - 1)


def cuts():
    """Logs that are cut, the verdict on each, and how many bytes a read takes at most, if that is
    limited."""
    log, of_one_byte = log_of(SESSION), log_of(SESSION, 1)
    for records, whole, reads in [(RECORDS, log, [1, 7, None]), (RECORDS_OF_ONE_BYTE, of_one_byte, [7])]:
        wanted = [*verdicts(records)]
        if len(wanted) != len(whole):
            raise ValueError(f"a log of {len(whole)} bytes for {len(wanted)} verdicts")
        for length, verdict in enumerate(wanted):
            for most in reads:
                yield whole[:length], verdict, most
    yield log_of(DIFFERENT), DIFFERS, None


def clean():
    """Logs without an offence so far: a session that is cut before its last event is whole."""
    log = log_of(DIFFERENT)
    return [log[:length] for length in range(len(log))]


def spoilt():
    """The session with one byte changed."""
    log = log_of(SESSION)
    return [log[:at] + bytes([byte]) + log[at + 1 :] for at in range(len(log)) for byte in BYTES]


def streams():
    """The editor's stream cut at each length, with the status and the whole output for each."""
    stream, lines = b"", ""
    for number, (words, line) in enumerate(FRAMES, 1):
        whole = frame(content_of(words))
        yield stream, 0, lines
        for length in range(1, len(whole)):
            report = f"fault 107 frame {number}\nstream ends inside a frame\n"
            yield stream + whole[:length], 2, lines + report
        stream, lines = stream + whole, lines + line + "\n"
    yield stream, 0, lines
