"""Compares the built rehearsal programs with the model, byte for byte.

    python3 model/compare.py [--seeds N] [--steps M] [--first SEED] [--raw N]
                             [--place PROGRAM] [--mag PROGRAM]

For each seed and both kinds a guided input is made and run through both.  With
--raw there are also inputs of random bytes and of any length: for even seeds
uniformly random, for odd seeds mostly small bytes, so that more records are
well formed.  At the first difference both sides are shown; the status is 1.
"""

import argparse
import random
import subprocess
import sys
from pathlib import Path

from generate import make_input
from rehearsal import KINDS, RECORD, records, rehearse

ROOT = Path(__file__).resolve().parent.parent

# Seconds for one input.
PATIENCE = 60


def raw_input(name, seed):
    """Random bytes, of a length that is mostly no multiple of a record's."""
    rng = random.Random(f"raw {name} {seed}")
    length = rng.randrange(200 * RECORD.size)
    if seed % 2 == 0:
        return rng.randbytes(length)
    return bytes(rng.choice([0, 0, 0, 0, 0, 0, 0, rng.randrange(16)])
                 if at % RECORD.size else rng.randrange(17) for at in range(length))


def first_difference(wanted, got):
    """The number of the first record that differs."""
    wanted_records, got_records = records(wanted), records(got)
    for number, (a, b) in enumerate(zip(wanted_records, got_records)):
        if a != b:
            return number
    return min(len(wanted_records), len(got_records))


def show(title, data, number):
    record = data[number * RECORD.size:(number + 1) * RECORD.size]
    print(f"  {title:8}{record.hex(' ') or 'nothing'}")


def compare(name, program, label, data):
    """Run one input through the program and the model; True if they agree."""
    wanted = rehearse(name, data)
    try:
        ran = subprocess.run([str(program)], input=data, stdout=subprocess.PIPE, check=False,
                             timeout=PATIENCE)
    except subprocess.TimeoutExpired:
        print(f"{name}, {label}: no end after {PATIENCE} seconds")
        return False
    if ran.stdout == wanted and ran.returncode == 0:
        return True
    print(f"{name}, {label}: exit status {ran.returncode}, {len(wanted)} bytes from the model,"
          f" {len(ran.stdout)} from the program")
    if ran.stdout == wanted:
        return False
    number = first_difference(wanted, ran.stdout)
    print(f"  record {number} differs (counted from 0)")
    show("input", data, number)
    show("model", wanted, number)
    show("program", ran.stdout, number)
    return False


def main(arguments):
    parser = argparse.ArgumentParser(description=__doc__.splitlines()[0])
    parser.add_argument("--seeds", type=int, default=20, help="guided inputs of each kind")
    parser.add_argument("--steps", type=int, default=3_000, help="records of a guided input")
    parser.add_argument("--first", type=int, default=1_000, help="the first seed")
    parser.add_argument("--raw", type=int, default=0, help="inputs of random bytes of each kind")
    parser.add_argument("--place", default="crates/rehearse_place/out/rehearse_place", help="program for places")
    parser.add_argument("--mag", default="crates/rehearse_mag/out/rehearse_mag", help="program for magnitudes")
    options = parser.parse_args(arguments)
    programs = {name: ROOT / getattr(options, name) for name in KINDS}
    for program in programs.values():
        if not program.is_file():
            print(f"there is no program {program}")
            return 2
    compared = 0
    for seed in range(options.first, options.first + options.seeds):
        for name, program in programs.items():
            data = make_input(name, seed, options.steps)
            if not compare(name, program, f"seed {seed}, {options.steps} steps", data):
                return 1
            compared += 1
    for seed in range(options.first, options.first + options.raw):
        for name, program in programs.items():
            if not compare(name, program, f"raw seed {seed}", raw_input(name, seed)):
                return 1
            compared += 1
    print(f"{compared} inputs compared: no difference")
    return 0


if __name__ == "__main__":
    sys.exit(main(sys.argv[1:]))
