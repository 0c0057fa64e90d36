"""Long guided inputs for the rehearsal programs, the same for the same seed.

    python3 model/generate.py place|mag SEED STEPS > input

A Guide proposes the steps while the model takes them.  Some records are made
malformed, and the last one may be short.
"""

import random
import sys

from guide import Guide, correct
from rehearsal import KINDS, RECORD, USED, answer, rehearsal_service, write_step
from service import Code
from values import MALFORMED

# The places of the fields in a record.
FIELDS = [("A", [1]), ("B", [2]), ("zero", [3]), ("N", range(4, 8)), ("V", range(8, 24))]


def flawed(rng, kind, record):
    """A record that is malformed in one way."""
    record = bytearray(record)
    flaw = rng.choice(["code", "zero", "value", "value", "unused", "unused", "unused", "unused"])
    if flaw == "code":
        record[0] = rng.choice([0, 15, 16, 128, 255, rng.randint(15, 255)])
    elif flaw == "zero":
        record[3] = rng.randint(1, 255)
    elif flaw == "value":
        record = bytearray(write_step(correct(rng.randrange(6), rng.choice([0, 1, 4_096]),
                                              MALFORMED[kind](rng))))
    else:
        # Any step but the one that uses nearly all, with one unused byte.
        code = rng.choice([code for code in Code if code != Code.CORRECT])
        record = bytearray([code]).ljust(RECORD.size, b"\0")
        unused = [at for field, at in FIELDS if field not in USED[code]]
        record[rng.choice(rng.choice(unused))] = rng.choice([1, 128, 255, rng.randint(1, 255)])
    return bytes(record)


def make_input(name, seed, steps, opening=()):
    """An input of so many whole records, after the given ones, for one kind.

    It ends with the beginning of a record, if that is not empty.
    """
    rng = random.Random(f"{name} {seed}")
    service = rehearsal_service(name)
    guide = Guide(service, rng, steps)
    made = []
    for record in opening:
        answer(service, record)
        made.append(record)
    while len(made) < steps:
        record = write_step(guide.next_step())
        if rng.random() < 0.04:
            # The flawed record comes in addition, so that plans go on.
            made.append(flawed(rng, service.kind, record))
            answer(service, made[-1])
        answer(service, record)
        made.append(record)
    del made[steps:]
    made.append(made[-1][:rng.randrange(RECORD.size)])
    return b"".join(made)


def main(arguments):
    if len(arguments) != 3 or arguments[0] not in KINDS:
        print(__doc__, file=sys.stderr)
        return 2
    name, seed, steps = arguments[0], int(arguments[1]), int(arguments[2])
    sys.stdout.buffer.write(make_input(name, seed, steps))
    return 0


if __name__ == "__main__":
    sys.exit(main(sys.argv[1:]))
