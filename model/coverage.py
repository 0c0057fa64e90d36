"""What an input makes happen.

    python3 model/coverage.py place|mag < input

Prints how often each outcome came, for each step and each kind of message
delivered, and which way reads were answered.  The exit status is 1 unless the
input is long enough and everything that can come has come.
"""

import sys
from collections import Counter

from rehearsal import KINDS, RECORD, read_step, records, rehearsal_service
from service import (Answer, Answered, Code, Done, Drop, Dropped, LeaderRead, ReadAnswer,
                     ReadReply, Refusal, Refused, zone_of)

ENOUGH_STEPS = 3_000

# At the rehearsal's sizes and in so few steps nothing is used up, no size is
# wrong, no snapshot is read from a file, and no copy lacks what it is asked for.
CANNOT_COME = {
    Refusal.SIZE, Refusal.TERMS_USED_UP, Refusal.PARTS_USED_UP, Refusal.NUMBERS_USED_UP,
    Refusal.SNAPSHOT_FILE, Drop.NOT_THE_COMMITTED_LOG, Drop.SEQUENCE_USED_UP,
}


class Coverage:
    """Runs an input and counts."""

    def __init__(self, name, data):
        self.service = rehearsal_service(name)
        self.steps = 0                      # well-formed records
        self.malformed = 0                  # all others
        self.outcomes = Counter()           # by step, message kind and outcome
        self.reasons = Counter()            # by refusal or drop
        self.answered_by = Counter()        # reads, by who replied
        self.sent_on = Counter()            # copies' replies, by why
        self.leader_from_the_start = False
        # Who replied to each message in the table, if it is a read's answer.
        self.repliers = []
        for number, record in enumerate(records(data)):
            self.take(number, record)

    def take(self, number, record):
        whole = len(record) == RECORD.size
        step = read_step(self.service.kind, record) if whole else None
        if step is None:
            self.malformed += 1
            self.count("malformed", "", Refused(Refusal.MALFORMED))
            return
        self.steps += 1
        service = self.service
        message, row, replier = None, None, None
        if step.code == Code.DELIVER and service.is_place(step.n):
            message = service.messages[step.n]
            replier = self.repliers[step.n]
            if isinstance(message, ReadReply):
                row = service.relay.rows[zone_of(message.star)]
        outcome = service.take(step)
        self.count(step.code.name.lower(), type(message).__name__ if message else "", outcome)
        if number == 0 and step.code == Code.ELECT and outcome == Done(1):
            self.leader_from_the_start = True
        self.follow(step, outcome)
        if isinstance(message, ReadReply) and outcome == Done():
            self.note_reply(message, row)
        if isinstance(outcome, Answered) and isinstance(outcome.content, ReadAnswer):
            self.answered_by[replier] += 1

    def count(self, step, message, outcome):
        if isinstance(outcome, (Refused, Dropped)):
            number, layer = outcome.why.value
            what = "refused" if isinstance(outcome, Refused) else "dropped"
            self.outcomes[step, message, what, number, int(layer)] += 1
            self.reasons[outcome.why] += 1
        elif isinstance(outcome, Answered):
            content = type(outcome.content).__name__
            if outcome.content == ReadAnswer(None):
                content += " of none"
            self.outcomes[step, message, "answered " + content, 0, 0] += 1
        else:
            self.outcomes[step, message, "done", 0, 0] += 1

    def follow(self, step, outcome):
        """Keep the repliers beside the messages, as the table changes."""
        taken = None
        if step.code in (Code.DELIVER, Code.LOSE) and not isinstance(outcome, Refused):
            last = self.repliers.pop()
            if step.n < len(self.repliers):
                self.repliers[step.n] = last
        if step.code == Code.DOUBLE and not isinstance(outcome, Refused):
            taken = self.repliers[step.n]
        if len(self.repliers) < len(self.service.messages):
            self.repliers.append(taken)

    def note_reply(self, reply, row):
        """What the relay made of a read's reply."""
        sent = self.service.messages[-1]
        if isinstance(sent, Answer):
            self.repliers[-1] = "the leader" if reply.stamp is None else "a copy"
        elif isinstance(sent, LeaderRead):
            self.sent_on["stamps differ" if row.settled else "zone unsettled"] += 1

    def missing(self):
        """What should have come and did not."""
        wanted = [why for why in list(Refusal) + list(Drop) if why not in CANNOT_COME]
        if self.leader_from_the_start:
            # A leader is never lost again.
            wanted.remove(Refusal.NO_LEADER)
        lines = [f"{why.value[0]} of layer {int(why.value[1])} ({why.name}) never came"
                 for why in wanted if not self.reasons[why]]
        if self.steps < ENOUGH_STEPS:
            lines.append(f"only {self.steps} steps, {ENOUGH_STEPS} are wanted")
        for replier in ("a copy", "the leader"):
            if not self.answered_by[replier]:
                lines.append(f"no read was answered by {replier}")
        if not self.sent_on["stamps differ"]:
            lines.append("no copy's reply was sent on because stamps differ")
        return lines

    def report(self):
        lines = [f"{self.steps} steps, {self.malformed} malformed records", ""]
        names = [code.name.lower() for code in Code] + ["malformed"]
        for key in sorted(self.outcomes, key=lambda k: (names.index(k[0]),) + k[1:]):
            step, message, what, number, layer = key
            reason = f"{number} layer {layer}" if number else ""
            lines.append(f"{self.outcomes[key]:6}  {step:10}{message:18}{what:24}{reason}")
        lines.append("")
        for replier in ("a copy", "the leader"):
            lines.append(f"{self.answered_by[replier]:6}  reads answered by {replier}'s reply")
        for why in ("stamps differ", "zone unsettled"):
            lines.append(f"{self.sent_on[why]:6}  copies' replies sent on to the leader: {why}")
        longest = max(len(copy.log) for copy in self.service.copies)
        lines.append(f"{self.service.term:6}  terms")
        lines.append(f"{longest:6}  entries in the longest log at the end")
        lines.append(f"{len(self.service.committed_log()):6}  entries committed at the end")
        return "\n".join(lines)


def main(arguments):
    if len(arguments) != 1 or arguments[0] not in KINDS:
        print(__doc__, file=sys.stderr)
        return 2
    coverage = Coverage(arguments[0], sys.stdin.buffer.read())
    print(coverage.report())
    missing = coverage.missing()
    for line in missing:
        print("MISSING:", line)
    return 1 if missing else 0


if __name__ == "__main__":
    sys.exit(main(sys.argv[1:]))
