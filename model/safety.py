"""Run-time check of what must never happen.

    python3 model/safety.py [--seeds N] [--steps M] [--first SEED]

Long guided runs of services of many sizes, with both record kinds and both
vote rules.  After every step it is checked that

- an answered read has the value that the committed log had for its star at
  some moment between the request and the answer, a moment being a state before
  or after a whole step;
- an accepted correction was committed between its request and its acceptance,
  nothing is committed twice, and nothing that is answered unlawful is committed;
- the committed log only grows, and what a copy knows is its beginning;
- no copy is asked for entries of the committed log that it lacks;
- a snapshot that is written is read back.
"""

import argparse
import random
import sys
from collections import Counter

from guide import Guide
from kinds import Brightness, Place
from service import (Answered, Code, Done, Drop, Dropped, ReadAnswer, Refused, Unlawful,
                     last_value, new_service, read_snapshot, write_snapshot)
from votes import EveryCopy, Majority, laws_hold


class Violation(Exception):
    """Something happened that must never happen."""


class Checker:
    """Watches a service step by step."""

    def __init__(self, service):
        self.service = service
        self.committed = []
        self.lengths = [0]          # of the committed log, moment after moment
        self.requests = {}          # by client and number: request, when
        self.committed_when = {}    # by client and number
        self.unlawful = set()       # clients and numbers so answered
        self.answers = Counter()

    def take(self, step):
        """Take a step and check what came of it."""
        service = self.service
        message = None
        if step.code == Code.DELIVER and service.is_place(step.n):
            message = service.messages[step.n]
        outcome = service.take(step)
        if isinstance(outcome, Done) and step.code in (Code.READ, Code.CORRECT):
            key = (step.a, outcome.result)
            self.requests[key] = (service.clients[step.a].waiting, len(self.lengths) - 1)
        if outcome == Dropped(Drop.NOT_THE_COMMITTED_LOG):
            raise Violation("a copy lacks what it is asked for")
        if isinstance(outcome, Done) and step.code == Code.OPEN:
            if read_snapshot(write_snapshot(service.snapshot)) != service.snapshot:
                raise Violation("the snapshot is not read back")
        if not isinstance(outcome, Refused):
            self.check_logs()
        if isinstance(outcome, Answered):
            self.check_answer((message.client, message.number), outcome.content)
        return outcome

    def check_logs(self):
        committed = self.service.committed_log()
        before = len(self.committed)
        if committed[:before] != self.committed:
            raise Violation("the committed log lost an entry")
        for r, copy in enumerate(self.service.copies):
            if len(copy.log) < copy.known or copy.known_entries() != committed[:copy.known]:
                raise Violation(f"copy {r} knows what is not committed")
        if len(committed) > before:
            self.committed = committed
            self.lengths.append(len(committed))
            for entry in committed[before:]:
                self.check_entry(entry)

    def check_entry(self, entry):
        """A newly committed entry."""
        if entry.star == 0:
            return
        key = (entry.client, entry.number)
        if key not in self.requests:
            raise Violation(f"{key} is committed without a request")
        request, _ = self.requests[key]
        if (request.star, getattr(request, "value", None)) != (entry.star, entry.value):
            raise Violation(f"{key} is committed with another star or value")
        if key in self.committed_when:
            raise Violation(f"{key} is committed twice")
        if key in self.unlawful:
            raise Violation(f"{key} was answered unlawful and is committed")
        self.committed_when[key] = len(self.lengths) - 1

    def check_answer(self, key, content):
        """A client took an answer."""
        self.answers[type(content).__name__] += 1
        request, since = self.requests[key]
        if isinstance(content, ReadAnswer):
            values = [last_value(self.committed[:length], request.star)
                      for length in self.lengths[since:]]
            if content.value not in values:
                raise Violation(f"the read {key} got a value that was not there in its time")
        elif isinstance(content, Unlawful):
            if key in self.committed_when:
                raise Violation(f"{key} is committed and is answered unlawful")
            self.unlawful.add(key)
        else:
            if key not in self.committed_when:
                raise Violation(f"{key} is accepted and is not committed")
            if self.committed_when[key] < since:
                raise Violation(f"{key} was committed before its request")
            entry = self.committed[content.index - 1]
            if (entry.client, entry.number) != key:
                raise Violation(f"{key} is accepted with another entry's index")


def random_service(rng, make=new_service):
    """A service of random sizes, more often than not of handy ones."""
    kind = rng.choice([Place, Brightness])
    copies = rng.choice([3, 3, 3, 4, 5, 6, 7])
    rule = rng.choice([Majority, Majority, EveryCopy])(copies)
    if rng.random() < 0.7:
        return make(kind, rule, rng.choice([64, 200, 1_000]), rng.choice([16, 32, 64]),
                    rng.randint(3, 8))
    return make(kind, rule, rng.choice([1, 2, 5, 20, 64, 4_096]),
                rng.choice([1, 2, 4, 8, 32, 256]), rng.randint(1, 8))


def describe(service):
    return (f"{service.kind.__name__}, {type(service.rule).__name__}, "
            f"{len(service.copies)} copies, {service.capacity} entries, "
            f"{service.table_size} messages, {len(service.clients)} clients")


def run(seed, steps, make=new_service):
    """One run; the checker afterwards.  A violation tells where it came."""
    rng = random.Random(f"safety {seed}")
    service = random_service(rng, make)
    guide = Guide(service, rng, steps)
    checker = Checker(service)
    for number in range(steps):
        step = guide.next_step()
        try:
            checker.take(step)
        except Violation as violation:
            raise Violation(f"seed {seed} ({describe(service)}), step {number}, "
                            f"{step}: {violation}") from violation
    return checker


def main(arguments):
    parser = argparse.ArgumentParser(description=__doc__.splitlines()[0])
    parser.add_argument("--seeds", type=int, default=50)
    parser.add_argument("--steps", type=int, default=1_500)
    parser.add_argument("--first", type=int, default=0)
    options = parser.parse_args(arguments)
    for rule in (Majority, EveryCopy):
        for copies in range(3, 8):
            if not laws_hold(rule(copies)):
                print(f"{rule.__name__} of {copies} copies breaks a law of votes")
                return 1
    answers, committed = Counter(), 0
    for seed in range(options.first, options.first + options.seeds):
        try:
            checker = run(seed, options.steps)
        except Violation as violation:
            print("VIOLATION:", violation)
            return 1
        answers += checker.answers
        committed += len(checker.committed)
    print(f"{options.seeds} runs of {options.steps} steps, {committed} entries committed, "
          + ", ".join(f"{answers[name]} {name}" for name in sorted(answers))
          + ": nothing impossible happened")
    return 0


if __name__ == "__main__":
    sys.exit(main(sys.argv[1:]))
