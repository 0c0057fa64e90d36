"""The rehearsal programs: steps as 24-byte records in, outcomes as records out.

    python3 model/rehearsal.py place < input > output
    python3 model/rehearsal.py mag < input > output
    python3 model/rehearsal.py --self-check

A record in is: code, A (a copy or a client), B (the voters), zero, N (32 bits:
a star, a place, n or i), a value of 16 bytes.  A record out is: code, class,
number, layer, result (32 bits), the value read.  Any bytes are answered.
"""

import struct
import sys

from kinds import BLANK, Brightness, Place, lawful, well_formed
from service import (LAST_NUMBER, NO_STAMP, Answered, Code, Done, Drop, Dropped, Entry, Fresh,
                     KnownAlready, ReadAnswer, Refusal, Refused, Service, Step, new_service,
                     newer, read_snapshot, write_snapshot, zone_of)
from votes import EveryCopy, Majority

RECORD = struct.Struct("<BBBBI16s")

KINDS = {"place": Place, "mag": Brightness}

COPIES = 3
CAPACITY = 64
TABLE_SIZE = 32
CLIENTS = 4

# The fields that each step uses; all others have to be zero.
USED = {
    Code.ELECT: "AB",
    Code.OPEN: "",
    Code.INSTALL: "",
    Code.RESTART: "",
    Code.READ: "AN",
    Code.CORRECT: "ANV",
    Code.AGAIN: "A",
    Code.ABANDON: "A",
    Code.DELIVER: "N",
    Code.LOSE: "N",
    Code.DOUBLE: "N",
    Code.COPY: "A",
    Code.COMMIT: "N",
    Code.REPLY: "N",
}


def rehearsal_service(name) -> Service:
    """A new service of the rehearsal's sizes."""
    return new_service(KINDS[name], Majority(COPIES), CAPACITY, TABLE_SIZE, CLIENTS)


def write_step(step):
    """The record of a step."""
    return RECORD.pack(step.code, step.a, step.b, 0, step.n, step.value)


def read_step(kind, record):
    """The step that a whole record asks for, or None if it is malformed."""
    code, a, b, zero, n, value = RECORD.unpack(record)
    if code not in USED:
        return None
    used = USED[code]
    if (zero != 0
            or ("A" not in used and a != 0)
            or ("B" not in used and b != 0)
            or ("N" not in used and n != 0)
            or ("V" not in used and value != BLANK)
            or ("V" in used and not well_formed(kind, value))):
        return None
    return Step(Code(code), a, b, n, value)


def write_outcome(code, outcome):
    """The record of an outcome; fields that say nothing are zero."""
    kind_of_outcome, number, layer, result, value = 0, 0, 0, 0, None
    if isinstance(outcome, Done):
        result = outcome.result
    elif isinstance(outcome, Refused):
        kind_of_outcome = 1
        number, layer = outcome.why.value
    elif isinstance(outcome, Dropped):
        kind_of_outcome = 2
        number, layer = outcome.why.value
    elif isinstance(outcome, Answered):
        kind_of_outcome = 3
        content = outcome.content
        if isinstance(content, ReadAnswer):
            value = content.value
            result = 0 if value is None else 1
        elif isinstance(content, (Fresh, KnownAlready)):
            result = content.index
    return RECORD.pack(code, kind_of_outcome, number, layer, result, value or BLANK)


def records(data):
    """The records of an input; the last one may be short."""
    return [data[at:at + RECORD.size] for at in range(0, len(data), RECORD.size)]


def answer(service, record):
    """Take the step of one record and write its outcome."""
    if len(record) < RECORD.size:
        return write_outcome(0, Refused(Refusal.MALFORMED))
    step = read_step(service.kind, record)
    if step is None:
        return write_outcome(record[0], Refused(Refusal.MALFORMED))
    return write_outcome(record[0], service.take(step))


def rehearse(name, data):
    """The whole output for a whole input."""
    service = rehearsal_service(name)
    return b"".join(answer(service, record) for record in records(data))


# ---------------------------------------------------------------- self-check

def padded(text):
    return bytes.fromhex(text).ljust(RECORD.size, b"\0")


# Four records of rehearse-place and what becomes of them.
WORKED = [
    (padded("01 00 03"), padded("01 00 00 00 01")),
    (padded("02"), padded("02 00 00 00 01 00 01")),
    (padded("05 00 00 00 01 10"), padded("05 00 00 00 01")),
    (padded("09"), padded("09 02 14 04")),
]


def self_check():
    """The four worked records and a table of small facts."""
    given = b"".join(record for record, _ in WORKED)
    wanted = b"".join(outcome for _, outcome in WORKED)
    assert rehearse("place", given) == wanted
    short = bytes.fromhex("00 01 13 01").ljust(RECORD.size, b"\0")
    assert rehearse("mag", b"") == b""
    assert rehearse("mag", b"\x02") == short

    assert (zone_of(4_095), zone_of(4_096)) == (0, 1)
    assert not Majority(5).enough_to_commit(3) and Majority(5).enough_to_commit(19)
    every = EveryCopy(3)
    assert every.enough_to_commit(7) and not every.enough_to_commit(3)
    assert every.enough_to_elect(1) and not every.enough_to_elect(0)

    assert lawful(Place, Place(0, 324_000_000, 0, 0, 2000).write())
    assert not lawful(Place, Place(0, 324_000_001, 0, 0, 2000).write())
    assert lawful(Brightness, Brightness(-30.0, 30.0, 1900).write())
    assert not lawful(Brightness, Brightness(float("inf"), 0.0, 2100).write())
    assert not well_formed(Brightness, bytes.fromhex("0000c07f").ljust(16, b"\0"))
    assert Brightness(0.0, 0.0, 2000) != Brightness(-0.0, 0.0, 2000)

    def log(*terms):
        return [Entry(term, NO_STAMP, 0, 0, 0, BLANK) for term in terms]
    assert newer(log(1, 1, 2), log(1, 1, 1, 1))

    service = rehearsal_service("place")
    service.relay.turn = 1
    copy = service.next_copy(5)
    assert copy == 2 and (copy + 1) % COPIES == 0
    check_ends()


def check_ends():
    """What runs of a few thousand steps never reach."""
    for sizes in ((2, 64, 32, 4), (8, 64, 32, 4), (3, 0, 32, 4), (3, 4_097, 32, 4),
                  (3, 64, 0, 4), (3, 64, 257, 4), (3, 64, 32, 0), (3, 64, 32, 9)):
        copies, *others = sizes
        assert new_service(Place, Majority(copies), *others) == Refused(Refusal.SIZE)

    service = rehearsal_service("place")
    service.term = LAST_NUMBER
    assert service.elect(0, 7) == Refused(Refusal.TERMS_USED_UP)
    service.term = LAST_NUMBER - 1
    assert service.elect(0, 7) == Done(LAST_NUMBER)
    service.part = LAST_NUMBER
    assert service.open() == Refused(Refusal.PARTS_USED_UP)
    service.part = LAST_NUMBER - 1
    assert service.open() == Done(2 ** 32 - 1)
    service.clients[0].number = LAST_NUMBER
    assert service.read(0, 1) == Refused(Refusal.NUMBERS_USED_UP)
    assert service.install() == Done(2 ** 32 - 1)
    service.relay.sequence = LAST_NUMBER
    service.correct(1, 1, BLANK)
    assert service.deliver(1) == Dropped(Drop.SEQUENCE_USED_UP)

    written = write_snapshot(service.snapshot)
    assert len(written) == 320 and read_snapshot(written) == service.snapshot
    for at, byte in ((0, 2), (0, 0), (1, 0), (1, 128), (2, 7), (2, 1), (3, 1), (4, 0), (10, 255),
                     (18, 1)):
        changed = written[:at] + bytes([byte]) + written[at + 1:]
        assert read_snapshot(changed) == Refused(Refusal.SNAPSHOT_FILE)
    assert read_snapshot(written[1:]) == Refused(Refusal.SNAPSHOT_FILE)


def main(arguments):
    if arguments == ["--self-check"]:
        self_check()
        print("self-check passed")
        return 0
    if len(arguments) != 1 or arguments[0] not in KINDS:
        print(__doc__, file=sys.stderr)
        return 2
    sys.stdout.buffer.write(rehearse(arguments[0], sys.stdin.buffer.read()))
    return 0


if __name__ == "__main__":
    sys.exit(main(sys.argv[1:]))
