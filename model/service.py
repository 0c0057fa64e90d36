"""The replicated star catalogue: a second statement of its rules, to be read.

A service is a few copies of one log, the leader's part, a relay that lets
copies answer reads where that is safe, clients, and a table of the messages
under way.  Everything that can happen is one of fourteen steps; each is one
method of Service, and each of the nine kinds of message has one method that
says what its delivery does.

The first lines of a method are its checks, in their order: the first one that
fails decides.  A refused step alters nothing.  A delivery that is dropped
frees the message's place in the table and alters nothing else.
"""

from __future__ import annotations

import struct
from dataclasses import dataclass, field
from enum import Enum, IntEnum
from typing import NamedTuple, Optional, Union

from kinds import BLANK, lawful, well_formed
from votes import members

# Terms, session parts, sequence numbers and client numbers end here.
LAST_NUMBER = 65_535

LAST_STAR = 65_535
STARS_IN_A_ZONE = 4_096
ZONES = 16

COPIES_BOUNDS = range(3, 7 + 1)
CAPACITY_BOUNDS = range(1, 4_096 + 1)
TABLE_BOUNDS = range(1, 256 + 1)
CLIENTS_BOUNDS = range(1, 8 + 1)


# ---------------------------------------------------------------- outcomes

class Layer(IntEnum):
    """Who refuses or drops."""

    SERVICE = 1
    LOG = 2
    LEADER = 3
    RELAY = 4
    CLIENT = 5


class Refusal(Enum):
    """Why a step is refused: its number and its layer."""

    SIZE = (1, Layer.SERVICE)
    NO_SUCH = (2, Layer.SERVICE)
    VOTERS_NOT_ENOUGH = (3, Layer.LOG)
    VOTER_IS_NEWER = (4, Layer.LOG)
    TERMS_USED_UP = (5, Layer.LOG)
    NO_LEADER = (6, Layer.LOG)
    PARTS_USED_UP = (7, Layer.LEADER)
    NO_NEW_SNAPSHOT = (8, Layer.RELAY)
    CLIENT_WAITING = (9, Layer.CLIENT)
    CLIENT_IDLE = (10, Layer.CLIENT)
    NUMBERS_USED_UP = (11, Layer.CLIENT)
    TABLE_FULL = (12, Layer.SERVICE)
    NOTHING_TO_COPY = (13, Layer.LOG)
    INDEX = (14, Layer.LOG)
    OTHER_TERM = (15, Layer.LOG)
    HOLDERS_NOT_ENOUGH = (16, Layer.LOG)
    NOT_OF_THIS_SESSION = (17, Layer.LEADER)
    SNAPSHOT_FILE = (18, Layer.RELAY)
    MALFORMED = (19, Layer.SERVICE)


class Drop(Enum):
    """Why a delivered message is dropped: its number and its layer."""

    RELAY_CLOSED = (20, Layer.RELAY)
    OTHER_SESSION_AT_THE_LEADER = (21, Layer.LEADER)
    OTHER_SESSION_AT_THE_RELAY = (21, Layer.RELAY)
    SEQUENCE_NOT_ABOVE_LAST = (22, Layer.LEADER)
    NOT_READY = (23, Layer.LEADER)
    STILL_UNCOMMITTED = (24, Layer.LEADER)
    LOG_FULL = (25, Layer.LOG)
    NOT_THE_COMMITTED_LOG = (26, Layer.LOG)
    NOT_AWAITED = (27, Layer.CLIENT)
    SEQUENCE_USED_UP = (28, Layer.RELAY)
    TERM_HAS_AN_ENTRY = (29, Layer.LEADER)


@dataclass(frozen=True)
class Done:
    result: int = 0


@dataclass(frozen=True)
class Refused:
    why: Refusal


@dataclass(frozen=True)
class Dropped:
    why: Drop


@dataclass(frozen=True)
class ReadAnswer:
    """A star's value, or none."""

    value: Optional[bytes]


@dataclass(frozen=True)
class Fresh:
    """The correction is committed, in the session it came; its entry's index."""

    index: int


@dataclass(frozen=True)
class KnownAlready:
    """The correction was committed before it came once more; its entry's index."""

    index: int


@dataclass(frozen=True)
class Unlawful:
    """The correction's value is not lawful."""


Verdict = Union[Fresh, KnownAlready, Unlawful]


@dataclass(frozen=True)
class Answered:
    """A client took this answer."""

    content: Union[ReadAnswer, Verdict]


Outcome = Union[Done, Refused, Dropped, Answered]


# --------------------------------------------------------------- log and zones

class Stamp(NamedTuple):
    """A session and a sequence number, always kept and compared as a pair."""

    session: int
    sequence: int


NO_STAMP = Stamp(0, 0)


@dataclass(frozen=True)
class Entry:
    """A correction, or the opening entry of a term (star, client, number 0)."""

    term: int
    stamp: Stamp
    client: int
    number: int
    star: int
    value: bytes


@dataclass
class Copy:
    """A log, and how many of its leading entries are known to be committed."""

    log: list = field(default_factory=list)
    known: int = 0

    def known_entries(self):
        return self.log[:self.known]


def last_term(log):
    return log[-1].term if log else 0


def newer(log, other):
    """Is a log newer than another: a greater last term, or equal and longer?"""
    return (last_term(log), len(log)) > (last_term(other), len(other))


def zone_of(star):
    return star // STARS_IN_A_ZONE


def in_zone(entry, zone):
    """Star 0 stands only in opening entries and lies in no zone."""
    return entry.star != 0 and zone_of(entry.star) == zone


def last_value(entries, star):
    """The value of the star's last entry, or None."""
    return next((e.value for e in reversed(entries) if e.star == star), None)


def last_stamp(entries, zone):
    """The stamp of the zone's last entry, or (0, 0)."""
    return next((e.stamp for e in reversed(entries) if in_zone(e, zone)), NO_STAMP)


# ---------------------------------------------------------------- relay

class Row(NamedTuple):
    """What the relay knows of one zone.

    A settled row tells the relay which copies may answer reads of the zone,
    how many entries they have to know, and the stamp that shows that no later
    correction of the zone hides behind the answer.  An unsettled row has
    zeros, except for the latest sequence number issued in the zone.
    """

    settled: bool = False
    latest: int = 0
    index: int = 0
    holders: int = 0
    stamp: Stamp = NO_STAMP


@dataclass(frozen=True)
class Snapshot:
    """The zone rows as the leader saw them when it opened a session."""

    session: int
    leader: int
    rows: tuple


@dataclass
class Relay:
    """Closed at first; a closed relay keeps only its highest installed session."""

    is_open: bool = False
    session: int = 0
    rows: list = field(default_factory=lambda: [Row()] * ZONES)
    sequence: int = 0
    turn: int = 0
    highest_installed: int = 0


# ---------------------------------------------------------------- messages

@dataclass(frozen=True)
class ReadRequest:
    """Client to relay."""

    client: int
    number: int
    star: int


@dataclass(frozen=True)
class CorrectionRequest:
    """Client to relay."""

    client: int
    number: int
    star: int
    value: bytes


@dataclass(frozen=True)
class CopyRead:
    """Relay to a copy, which has to know the first `index` entries."""

    session: int
    copy: int
    index: int
    client: int
    number: int
    star: int


@dataclass(frozen=True)
class LeaderRead:
    """Relay to leader."""

    session: int
    client: int
    number: int
    star: int


@dataclass(frozen=True)
class Correction:
    """Relay to leader; the stamp has the relay's session."""

    stamp: Stamp
    client: int
    number: int
    star: int
    value: bytes


@dataclass(frozen=True)
class Installed:
    """Relay to leader: the session has begun."""

    session: int


@dataclass(frozen=True)
class ReadReply:
    """Copy or leader to relay; only a copy's reply has a stamp."""

    session: int
    stamp: Optional[Stamp]
    client: int
    number: int
    star: int
    value: Optional[bytes]


@dataclass(frozen=True)
class CorrectionReply:
    """Leader to relay; the holders count only with a fresh verdict."""

    stamp: Stamp
    client: int
    number: int
    star: int
    verdict: Verdict
    holders: int = 0


@dataclass(frozen=True)
class Answer:
    """Relay to client."""

    client: int
    number: int
    content: Union[ReadAnswer, Verdict]


# ---------------------------------------------------------------- clients

@dataclass
class Client:
    """Idle, or waiting for the answer to a request it keeps."""

    number: int = 0
    waiting: Union[None, ReadRequest, CorrectionRequest] = None

    def awaits(self, answer):
        """Does it wait for an answer of this kind and number?"""
        if self.waiting is None or self.waiting.number != answer.number:
            return False
        return isinstance(self.waiting, ReadRequest) == isinstance(answer.content, ReadAnswer)


# ---------------------------------------------------------------- steps

class Code(IntEnum):
    """The fourteen steps."""

    ELECT = 1
    OPEN = 2
    INSTALL = 3
    RESTART = 4
    READ = 5
    CORRECT = 6
    AGAIN = 7
    ABANDON = 8
    DELIVER = 9
    LOSE = 10
    DOUBLE = 11
    COPY = 12
    COMMIT = 13
    REPLY = 14


@dataclass(frozen=True)
class Step:
    """A step with its arguments; those that the step does not use are zero."""

    code: Code
    a: int = 0                  # a copy or a client
    b: int = 0                  # the voters
    n: int = 0                  # a star, a place in the table, n or i
    value: bytes = BLANK


def new_service(kind, rule, capacity, table_size, clients):
    """A service with empty logs, or the refusal of its sizes."""
    if (rule.copies not in COPIES_BOUNDS or capacity not in CAPACITY_BOUNDS
            or table_size not in TABLE_BOUNDS or clients not in CLIENTS_BOUNDS):
        return Refused(Refusal.SIZE)
    return Service(kind, rule, capacity, table_size, clients)


class Service:
    """The state of a service, and its steps."""

    def __init__(self, kind, rule, capacity, table_size, clients):
        self.kind = kind
        self.rule = rule
        self.capacity = capacity
        self.table_size = table_size

        # The log: its copies, the present term and who leads in it.
        self.copies = [Copy() for _ in range(rule.copies)]
        self.term = 0
        self.leader: Optional[int] = None

        # The leader's part.
        self.part = 0
        self.last_sequence = 0
        self.snapshot: Optional[Snapshot] = None

        self.relay = Relay()
        self.clients = [Client() for _ in range(clients)]
        self.messages: list = []

    # ------------------------------------------------ what the rules speak of

    @property
    def session(self):
        """The leader's present session; its part is 0 until one is opened."""
        return self.term * 65_536 + self.part

    @property
    def leading(self):
        """The leader's copy."""
        return self.copies[self.leader]

    def ready(self):
        """Does the last entry within the leader's known count have its term?"""
        return self.leading.known > 0 and last_term(self.leading.known_entries()) == self.term

    def holds(self, copy, count):
        """Are a copy's first `count` entries there, and equal to the leader's?"""
        log = self.copies[copy].log
        return len(log) >= count and log[:count] == self.leading.log[:count]

    def holders(self, count):
        """The set of the copies that hold so many entries."""
        return sum(1 << r for r in range(len(self.copies)) if self.holds(r, count))

    def committed_log(self):
        """What the lowest of the copies with the greatest known count knows."""
        best = max(self.copies, key=lambda copy: copy.known)
        return best.known_entries()

    def table_full(self):
        return len(self.messages) == self.table_size

    def log_full(self):
        return len(self.leading.log) == self.capacity

    def is_copy(self, copy):
        return 0 <= copy < len(self.copies)

    def is_client(self, client):
        return 0 <= client < len(self.clients)

    def is_place(self, place):
        return 0 <= place < len(self.messages)

    def put(self, message):
        """A new message goes to the end of the table."""
        self.messages.append(message)

    def take_out(self, place):
        """A message leaves the table; the last one moves into its place."""
        message = self.messages[place]
        last = self.messages.pop()
        if place < len(self.messages):
            self.messages[place] = last
        return message

    # ------------------------------------------------ log and leader

    def elect(self, candidate, voters):
        """Make a copy the leader of the next term.

        The candidate need not vote.  Nothing else changes: logs, known counts,
        the last sequence number, the snapshot and the relay stay.
        """
        if not self.is_copy(candidate) or voters >> len(self.copies):
            return Refused(Refusal.NO_SUCH)
        if not self.rule.enough_to_elect(voters):
            return Refused(Refusal.VOTERS_NOT_ENOUGH)
        log = self.copies[candidate].log
        if any(newer(self.copies[v].log, log) for v in members(len(self.copies), voters)):
            return Refused(Refusal.VOTER_IS_NEWER)
        if self.term == LAST_NUMBER:
            return Refused(Refusal.TERMS_USED_UP)
        self.term += 1
        self.leader = candidate
        self.part = 0
        return Done(self.term)

    def open(self):
        """Begin the leader's next session and write its snapshot."""
        if self.leader is None:
            return Refused(Refusal.NO_LEADER)
        if self.part == LAST_NUMBER:
            return Refused(Refusal.PARTS_USED_UP)
        self.part += 1
        self.last_sequence = 0
        rows = tuple(self.snapshot_row(zone) for zone in range(ZONES))
        self.snapshot = Snapshot(self.session, self.leader, rows)
        return Done(self.session)

    def snapshot_row(self, zone):
        """A zone is settled if no entry of it lies beyond the known count."""
        known = self.leading.known
        if any(in_zone(entry, zone) for entry in self.leading.log[known:]):
            return Row()
        return Row(settled=True, latest=0, index=known, holders=self.holders(known),
                   stamp=last_stamp(self.leading.known_entries(), zone))

    def copy(self, copy):
        """Bring one entry of the leader to a copy.

        It goes to the first position where the copy's log ends or has another
        term than the leader's; what followed there is discarded.  A longer log
        that agrees with all of the leader's is not cut.
        """
        if not self.is_copy(copy):
            return Refused(Refusal.NO_SUCH)
        if self.leader is None:
            return Refused(Refusal.NO_LEADER)
        log = self.copies[copy].log
        for position, entry in enumerate(self.leading.log):
            if position == len(log) or log[position].term != entry.term:
                log[position:] = [entry]
                return Done(len(log))
        return Refused(Refusal.NOTHING_TO_COPY)

    def commit(self, n):
        """Raise the leader's known count to n."""
        if self.leader is None:
            return Refused(Refusal.NO_LEADER)
        if not self.leading.known < n <= len(self.leading.log):
            return Refused(Refusal.INDEX)
        if self.leading.log[n - 1].term != self.term:
            return Refused(Refusal.OTHER_TERM)
        if not self.rule.enough_to_commit(self.holders(n)):
            return Refused(Refusal.HOLDERS_NOT_ENOUGH)
        self.leading.known = n
        return Done(n)

    def reply(self, i):
        """Put a fresh reply for entry i, with the copies that hold i entries."""
        if self.leader is None:
            return Refused(Refusal.NO_LEADER)
        if not 0 < i <= self.leading.known:
            return Refused(Refusal.INDEX)
        entry = self.leading.log[i - 1]
        if entry.star == 0 or entry.stamp.session != self.session:
            return Refused(Refusal.NOT_OF_THIS_SESSION)
        if self.table_full():
            return Refused(Refusal.TABLE_FULL)
        self.put(CorrectionReply(entry.stamp, entry.client, entry.number, entry.star,
                                 Fresh(i), self.holders(i)))
        return Done(i)

    # ------------------------------------------------ relay

    def install(self):
        """Open the relay with the snapshot's rows and tell the leader."""
        snapshot = self.snapshot
        if snapshot is None or snapshot.session <= self.relay.highest_installed:
            return Refused(Refusal.NO_NEW_SNAPSHOT)
        if self.table_full():
            return Refused(Refusal.TABLE_FULL)
        self.relay = Relay(is_open=True, session=snapshot.session, rows=list(snapshot.rows),
                           sequence=0, turn=0, highest_installed=snapshot.session)
        self.put(Installed(snapshot.session))
        return Done(snapshot.session)

    def restart(self):
        """Close the relay; only its highest installed session survives."""
        self.relay = Relay(highest_installed=self.relay.highest_installed)
        return Done()

    # ------------------------------------------------ clients

    def read(self, client, star):
        """A client asks for a star's value."""
        return self.request(client, star, None)

    def correct(self, client, star, value):
        """A client asks for a star's value to be corrected, lawfully or not."""
        if not well_formed(self.kind, value):
            return Refused(Refusal.MALFORMED)
        return self.request(client, star, value)

    def request(self, client, star, value):
        """Raise the client's number, keep the request and send it."""
        if not self.is_client(client) or not 1 <= star <= LAST_STAR:
            return Refused(Refusal.NO_SUCH)
        asking = self.clients[client]
        if asking.waiting is not None:
            return Refused(Refusal.CLIENT_WAITING)
        if asking.number == LAST_NUMBER:
            return Refused(Refusal.NUMBERS_USED_UP)
        if self.table_full():
            return Refused(Refusal.TABLE_FULL)
        asking.number += 1
        if value is None:
            asking.waiting = ReadRequest(client, asking.number, star)
        else:
            asking.waiting = CorrectionRequest(client, asking.number, star, value)
        self.put(asking.waiting)
        return Done(asking.number)

    def again(self, client):
        """A waiting client sends the request it keeps once more."""
        if not self.is_client(client):
            return Refused(Refusal.NO_SUCH)
        request = self.clients[client].waiting
        if request is None:
            return Refused(Refusal.CLIENT_IDLE)
        if self.table_full():
            return Refused(Refusal.TABLE_FULL)
        self.put(request)
        return Done(request.number)

    def abandon(self, client):
        """A waiting client waits no more; its messages stay under way."""
        if not self.is_client(client):
            return Refused(Refusal.NO_SUCH)
        if self.clients[client].waiting is None:
            return Refused(Refusal.CLIENT_IDLE)
        self.clients[client].waiting = None
        return Done()

    # ------------------------------------------------ message table

    def lose(self, place):
        """A message is lost."""
        if not self.is_place(place):
            return Refused(Refusal.NO_SUCH)
        self.take_out(place)
        return Done()

    def double(self, place):
        """A message comes twice: its double goes to the end."""
        if not self.is_place(place):
            return Refused(Refusal.NO_SUCH)
        if self.table_full():
            return Refused(Refusal.TABLE_FULL)
        self.put(self.messages[place])
        return Done(len(self.messages))

    def deliver(self, place):
        """A message arrives: it leaves the table, then at most one is put."""
        if not self.is_place(place):
            return Refused(Refusal.NO_SUCH)
        message = self.take_out(place)
        arrives = {
            ReadRequest: self.read_request_arrives,
            CorrectionRequest: self.correction_request_arrives,
            CopyRead: self.copy_read_arrives,
            LeaderRead: self.leader_read_arrives,
            Correction: self.correction_arrives,
            Installed: self.installed_arrives,
            ReadReply: self.read_reply_arrives,
            CorrectionReply: self.correction_reply_arrives,
            Answer: self.answer_arrives,
        }
        return arrives[type(message)](message)

    # ------------------------------------------------ the nine deliveries

    def read_request_arrives(self, request):
        """At the relay: a copy of a settled zone is asked, else the leader."""
        if not self.relay.is_open:
            return Dropped(Drop.RELAY_CLOSED)
        row = self.relay.rows[zone_of(request.star)]
        if row.settled:
            copy = self.next_copy(row.holders)
            self.relay.turn = (copy + 1) % len(self.copies)
            self.put(CopyRead(self.relay.session, copy, row.index,
                              request.client, request.number, request.star))
        else:
            self.put(LeaderRead(self.relay.session,
                                request.client, request.number, request.star))
        return Done()

    def next_copy(self, holders):
        """The lowest copy in the set at or above the turn, else the lowest."""
        able = members(len(self.copies), holders)
        return next((r for r in able if r >= self.relay.turn), able[0])

    def correction_request_arrives(self, request):
        """At the relay: the zone is unsettled until the latest one is replied."""
        if not self.relay.is_open:
            return Dropped(Drop.RELAY_CLOSED)
        if self.relay.sequence == LAST_NUMBER:
            return Dropped(Drop.SEQUENCE_USED_UP)
        self.relay.sequence += 1
        self.relay.rows[zone_of(request.star)] = Row(latest=self.relay.sequence)
        self.put(Correction(Stamp(self.relay.session, self.relay.sequence),
                            request.client, request.number, request.star, request.value))
        return Done()

    def copy_read_arrives(self, read):
        """At a copy: it learns that `index` entries are committed, and replies.

        Whatever the session, its first `index` entries have to be the
        committed log's.
        """
        copy = self.copies[read.copy]
        committed = self.committed_log()
        if (read.index > len(committed) or read.index > len(copy.log)
                or copy.log[:read.index] != committed[:read.index]):
            return Dropped(Drop.NOT_THE_COMMITTED_LOG)
        copy.known = max(copy.known, read.index)
        known = copy.known_entries()
        self.put(ReadReply(read.session, last_stamp(known, zone_of(read.star)),
                           read.client, read.number, read.star,
                           last_value(known, read.star)))
        return Done()

    def leader_read_arrives(self, read):
        """At the leader: it replies from its own known entries."""
        if read.session != self.session:
            return Dropped(Drop.OTHER_SESSION_AT_THE_LEADER)
        if not self.ready():
            return Dropped(Drop.NOT_READY)
        self.put(ReadReply(read.session, None, read.client, read.number, read.star,
                           last_value(self.leading.known_entries(), read.star)))
        return Done()

    def correction_arrives(self, correction):
        """At the leader: it is appended, unless something stands against it."""
        if correction.stamp.session != self.session:
            return Dropped(Drop.OTHER_SESSION_AT_THE_LEADER)
        if correction.stamp.sequence <= self.last_sequence:
            return Dropped(Drop.SEQUENCE_NOT_ABOVE_LAST)
        if not lawful(self.kind, correction.value):
            return self.reply_to(correction, Unlawful())
        index = self.index_of(correction.client, correction.number)
        if index is not None:
            if index <= self.leading.known:
                return self.reply_to(correction, KnownAlready(index))
            return Dropped(Drop.STILL_UNCOMMITTED)
        if self.log_full():
            return Dropped(Drop.LOG_FULL)
        self.leading.log.append(Entry(self.term, correction.stamp, correction.client,
                                      correction.number, correction.star, correction.value))
        self.last_sequence = correction.stamp.sequence
        return Done()

    def index_of(self, client, number):
        """The index of this client's entry of this number in the leader's log."""
        for index, entry in enumerate(self.leading.log, start=1):
            if (entry.client, entry.number) == (client, number):
                return index
        return None

    def reply_to(self, correction, verdict):
        """Reply to a correction that is not appended."""
        self.put(CorrectionReply(correction.stamp, correction.client, correction.number,
                                 correction.star, verdict))
        return Done()

    def installed_arrives(self, installed):
        """At the leader: the first session of a term appends an opening entry."""
        if installed.session != self.session:
            return Dropped(Drop.OTHER_SESSION_AT_THE_LEADER)
        if any(entry.term == self.term for entry in self.leading.log):
            return Dropped(Drop.TERM_HAS_AN_ENTRY)
        if self.log_full():
            return Dropped(Drop.LOG_FULL)
        self.leading.log.append(Entry(self.term, Stamp(installed.session, 0), 0, 0, 0, BLANK))
        return Done()

    def read_reply_arrives(self, reply):
        """At the relay: a copy's reply counts only if its stamp is the row's."""
        if not self.relay.is_open:
            return Dropped(Drop.RELAY_CLOSED)
        if reply.session != self.relay.session:
            return Dropped(Drop.OTHER_SESSION_AT_THE_RELAY)
        from_leader = reply.stamp is None
        row = self.relay.rows[zone_of(reply.star)]
        if from_leader or (row.settled and reply.stamp == row.stamp):
            self.put(Answer(reply.client, reply.number, ReadAnswer(reply.value)))
        else:
            self.put(LeaderRead(reply.session, reply.client, reply.number, reply.star))
        return Done()

    def correction_reply_arrives(self, reply):
        """At the relay: a fresh reply to the zone's latest settles the zone."""
        if not self.relay.is_open:
            return Dropped(Drop.RELAY_CLOSED)
        if reply.stamp.session != self.relay.session:
            return Dropped(Drop.OTHER_SESSION_AT_THE_RELAY)
        zone = zone_of(reply.star)
        row = self.relay.rows[zone]
        if isinstance(reply.verdict, Fresh) and reply.stamp.sequence == row.latest:
            self.relay.rows[zone] = Row(settled=True, latest=row.latest,
                                        index=reply.verdict.index,
                                        holders=reply.holders, stamp=reply.stamp)
        self.put(Answer(reply.client, reply.number, reply.verdict))
        return Done()

    def answer_arrives(self, answer):
        """At a client: taken only while it waits for this kind and number."""
        client = self.clients[answer.client]
        if not client.awaits(answer):
            return Dropped(Drop.NOT_AWAITED)
        client.waiting = None
        return Answered(answer.content)

    # ------------------------------------------------ any step

    def take(self, step):
        """Take one step, given as a record."""
        return {
            Code.ELECT: lambda: self.elect(step.a, step.b),
            Code.OPEN: lambda: self.open(),
            Code.INSTALL: lambda: self.install(),
            Code.RESTART: lambda: self.restart(),
            Code.READ: lambda: self.read(step.a, step.n),
            Code.CORRECT: lambda: self.correct(step.a, step.n, step.value),
            Code.AGAIN: lambda: self.again(step.a),
            Code.ABANDON: lambda: self.abandon(step.a),
            Code.DELIVER: lambda: self.deliver(step.n),
            Code.LOSE: lambda: self.lose(step.n),
            Code.DOUBLE: lambda: self.double(step.n),
            Code.COPY: lambda: self.copy(step.a),
            Code.COMMIT: lambda: self.commit(step.n),
            Code.REPLY: lambda: self.reply(step.n),
        }[step.code]()


# ---------------------------------------------------------------- snapshot file

ROW_LAYOUT = struct.Struct("<BBBBIIII")


def write_snapshot(snapshot):
    """16 rows of 20 bytes: mark, set, leader, zero; session, index, stamp."""
    return b"".join(
        ROW_LAYOUT.pack(row.settled, row.holders, snapshot.leader, 0, snapshot.session,
                        row.index, row.stamp.session, row.stamp.sequence)
        for row in snapshot.rows)


def read_snapshot(data):
    """The snapshot these bytes write, or their refusal."""
    refused = Refused(Refusal.SNAPSHOT_FILE)
    if len(data) != ZONES * ROW_LAYOUT.size:
        return refused
    fields = list(ROW_LAYOUT.iter_unpack(data))
    leader, session = fields[0][2], fields[0][4]
    if leader > 6 or session // 65_536 == 0 or session % 65_536 == 0:
        return refused
    rows = []
    for mark, holders, its_leader, zero, its_session, index, stamp_session, sequence in fields:
        if its_leader != leader or its_session != session:
            return refused
        if mark > 1 or holders > 127 or zero != 0:
            return refused
        if mark == 1 and not holders >> leader & 1:
            return refused
        if mark == 0 and (index, holders, stamp_session, sequence) != (0, 0, 0, 0):
            return refused
        if index > 4_096 or sequence > LAST_NUMBER or stamp_session > session:
            return refused
        rows.append(Row(bool(mark), 0, index, holders, Stamp(stamp_session, sequence)))
    return Snapshot(session, leader, tuple(rows))
