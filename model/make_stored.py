"""Makes the stored inputs and outputs of the two rehearsal programs.

    python3 model/make_stored.py            writes them
    python3 model/make_stored.py --check    writes nothing; status 1 if they differ

For each program the folder of its crate gets the files stdin and stdout.  The
inputs come from fixed seeds; the one for places begins with an open that is
refused for want of a leader, which changes nothing, and the four worked records.  What is made is also run through the coverage test.
"""

import sys
from pathlib import Path

from coverage import Coverage
from generate import make_input
from rehearsal import WORKED, rehearse, self_check

ROOT = Path(__file__).resolve().parent.parent

STEPS = 3_200

# An open before any election.
EARLY_OPEN = bytes([2]) + bytes(23)

# Of each program: its kind, its seed, and the records it begins with.
STORED = {
    "rehearse_place": ("place", 51, [EARLY_OPEN] + [record for record, _ in WORKED]),
    "rehearse_mag": ("mag", 26, []),
}


def make(program):
    """The input and the output of a program, and what is missing in them."""
    name, seed, opening = STORED[program]
    data = make_input(name, seed, STEPS, opening)
    return data, rehearse(name, data), Coverage(name, data).missing()


def main(arguments):
    if arguments not in ([], ["--check"]):
        print(__doc__, file=sys.stderr)
        return 2
    checking = arguments == ["--check"]
    self_check()
    status = 0
    for program in STORED:
        data, output, missing = make(program)
        for line in missing:
            print(f"{program}: {line}")
            status = 1
        folder = ROOT / "crates" / program
        for path, content in ((folder / "stdin", data), (folder / "stdout", output)):
            shown = path.relative_to(ROOT)
            if not checking:
                folder.mkdir(parents=True, exist_ok=True)
                path.write_bytes(content)
                print(f"{shown}: {len(content)} bytes written")
            elif path.is_file() and path.read_bytes() == content:
                print(f"{shown}: as made")
            else:
                print(f"{shown}: differs from what is made, or is not there")
                status = 1
    return status


if __name__ == "__main__":
    sys.exit(main(sys.argv[1:]))
