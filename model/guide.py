"""A guide through long runs: it watches a service and proposes its next step.

The guide follows several plans at a time.  A plan is a little script, such as
an election, a read, or a reply held back while its zone is corrected; it looks
at the service before each of its steps, and it may be left at any point, so
that messages come late, twice or never.  A share of the steps is random.

The logs of the rehearsal are short and nothing shortens what is committed, so
the guide lets the logs grow slowly and deals the plans that make them grow
from a deck, where each comes once before any comes again.
"""

from service import (Code, Correction, CorrectionReply, CorrectionRequest, Installed, ReadReply,
                     ReadRequest, Step, last_term, newer, zone_of)
from values import LAWFUL, UNLAWFUL

# Stars on both sides of zone bounds; a run uses a handful of them.
FIRST_STARS = [1, 4_095, 4_096, 65_535]
MORE_STARS = [2, 4_094, 4_097, 8_191, 8_192, 30_000, 61_440, 65_534]
NO_STARS = [0, 65_536, 65_537, 65_536 + 4_096, 2 ** 31 + 1, 2 ** 32 - 1]


# ---------------------------------------------------------------- steps

def elect(candidate, voters):
    return Step(Code.ELECT, a=candidate, b=voters)


def read(client, star):
    return Step(Code.READ, a=client, n=star)


def correct(client, star, value):
    return Step(Code.CORRECT, a=client, n=star, value=value)


def again(client):
    return Step(Code.AGAIN, a=client)


def abandon(client):
    return Step(Code.ABANDON, a=client)


def deliver(place):
    return Step(Code.DELIVER, n=place)


def lose(place):
    return Step(Code.LOSE, n=place)


def double(place):
    return Step(Code.DOUBLE, n=place)


def copy(r):
    return Step(Code.COPY, a=r)


def commit(n):
    return Step(Code.COMMIT, n=n)


def reply(i):
    return Step(Code.REPLY, n=i)


OPEN, INSTALL, RESTART = Step(Code.OPEN), Step(Code.INSTALL), Step(Code.RESTART)


# ---------------------------------------------------------------- the guide

class Guide:
    """Proposes steps of a service; the caller takes each before the next."""

    def __init__(self, service, rng, steps, leaderless=10):
        self.service = service
        self.rng = rng
        self.steps = steps
        self.count = 0
        self.leaderless = leaderless
        self.stars = FIRST_STARS + rng.sample(MORE_STARS, 2)
        self.plans = []
        self.calm_deck = []
        self.wild_deck = []
        self.new_phase()

    def lawful(self):
        return LAWFUL[self.service.kind](self.rng)

    def unlawful(self):
        return UNLAWFUL[self.service.kind](self.rng)

    def chance(self, share):
        return self.rng.random() < share

    # ------------------------------------------------ the next step

    def new_phase(self):
        """For a while: how much is random, at once, given up, under way."""
        rng, size = self.rng, self.service.table_size
        self.phase_end = self.count + rng.randint(40, 160)
        self.noise = rng.choice([0.05, 0.1, 0.2, 0.4])
        self.at_once = rng.choice([1, 1, 2, 3])
        self.given_up = rng.choice([0.0, 0.01, 0.04])
        self.pause = rng.choice([0.0, 0.1, 0.3])
        self.calm = self.chance(0.65)           # no elections or restarts
        self.flood = self.chance(0.12)          # the table fills
        self.fill = rng.choice([size // 4, size // 2, size - 1])
        if self.flood:
            self.phase_end = self.count + 20 + min(3 * size, 100)
            self.noise = 0.8
            self.fill = size

    def may_grow(self):
        """May the logs grow, at this point of the run?

        They are full after seven eighths of the steps.
        """
        longest = max(len(c.log) for c in self.service.copies)
        return longest < 3 + self.service.capacity * self.count / (0.875 * self.steps)

    def next_step(self):
        self.count += 1
        if self.count > self.phase_end:
            self.new_phase()
        if self.service.leader is None and self.count <= self.leaderless:
            return self.leaderless_step()
        if len(self.service.messages) > self.fill and self.chance(0.5):
            return self.draining_step()
        if not self.chance(self.noise):
            for _ in range(12):
                step = self.planned_step()
                if step is not None:
                    return step
        return self.random_step()

    def planned_step(self):
        """The next step of one of the plans; None if it has none just now."""
        if len(self.plans) < self.at_once:
            self.plans.append(self.new_plan())
        plan = self.rng.choice(self.plans)
        over = object()
        step = next(plan, over)
        if step is over or self.chance(self.given_up):
            self.plans.remove(plan)
        return None if step is over else step

    def new_plan(self):
        """Choose what to begin next."""
        s = self.service
        if s.leader is None:
            return self.new_leader()
        in_session = s.relay.is_open and s.relay.session == s.session
        if not in_session and self.chance(0.7):
            return self.new_session()
        if not s.ready() and self.may_grow() and self.chance(0.5):
            return self.get_ready()
        if len(s.leading.log) == s.capacity - 1 and self.chance(0.5):
            return self.last_entry()
        if self.chance(0.35 if self.may_grow() else 0.02):
            return self.deal()
        wild = 0.0 if self.calm else 0.4
        plan, = self.rng.choices(
            [self.read_something, self.finish_waiting, self.catch_up, self.unsettle,
             self.correct_unlawfully, self.closed_relay, self.contest, self.new_session],
            [6, 3, 1, 1, 1, wild, wild, 1.0 if s.log_full() else wild])
        return plan()

    def deal(self):
        """The next of the plans that make the log grow.

        Calm phases go on in one term, others have one election after another.
        """
        if self.calm or self.chance(0.3):
            if not self.calm_deck:
                self.calm_deck = [
                    self.correct_something, self.correct_something, self.late_reply,
                    self.late_reply, self.hidden_correction, self.split_commit,
                    self.early_copy, self.early_settling, self.out_of_order, self.same_number,
                    self.wider_set]
                self.rng.shuffle(self.calm_deck)
            return self.calm_deck.pop()()
        if not self.wild_deck:
            self.wild_deck = [self.new_leader, self.rivals, self.old_entry, self.old_entry,
                              self.late_install, self.retry_elsewhere, self.shared_front]
            self.rng.shuffle(self.wild_deck)
        return self.wild_deck.pop()()

    # ------------------------------------------------ looking at the service

    def place_of(self, wanted):
        """The newest message that is wanted, if any."""
        messages = self.service.messages
        for place in range(len(messages) - 1, -1, -1):
            if wanted(messages[place]):
                return place
        return None

    def place_for(self, client, number, kind=object):
        """The newest message about this request, of this kind, if any."""
        return self.place_of(lambda m: not isinstance(m, Installed) and isinstance(m, kind)
                             and (m.client, m.number) == (client, number))

    def idle_clients(self):
        """In random order."""
        idle = [c for c, client in enumerate(self.service.clients) if client.waiting is None]
        return self.rng.sample(idle, len(idle))

    def number_of(self, client):
        return self.service.clients[client].number

    def waits(self, client, number):
        waiting = self.service.clients[client].waiting
        return waiting is not None and waiting.number == number

    def settled_stars(self):
        return [star for star in self.stars if self.service.relay.rows[zone_of(star)].settled]

    def neighbour(self, star):
        """A star of the same zone, perhaps itself."""
        return self.rng.choice([o for o in self.stars + [star] if zone_of(o) == zone_of(star)])

    def others(self, *excluded):
        return [r for r in range(len(self.service.copies)) if r not in excluded]

    def electable(self):
        """A copy and voters that would elect it."""
        s, rng = self.service, self.rng
        for candidate in rng.sample(self.others(), len(s.copies)):
            log = s.copies[candidate].log
            willing = [r for r, c in enumerate(s.copies) if not newer(c.log, log)]
            rng.shuffle(willing)
            voters = 0
            for r in willing:
                voters |= 1 << r
                if s.rule.enough_to_elect(voters) and self.chance(0.7):
                    break
            if s.rule.enough_to_elect(voters):
                return candidate, voters
        return 0, (1 << len(s.copies)) - 1

    def electable_without(self, candidate, other):
        """This candidate, and all that will have it, but for one copy."""
        log = self.service.copies[candidate].log
        return candidate, sum(1 << r for r, c in enumerate(self.service.copies)
                              if r != other and not newer(c.log, log))

    # ------------------------------------------------ parts of plans

    def wait(self):
        """Now and then let others go first."""
        while self.chance(self.pause):
            yield None

    def send_on(self, client, number, times=12):
        """Deliver a request's messages one after the other."""
        for _ in range(times):
            place = self.place_for(client, number)
            if place is None or not self.waits(client, number):
                return
            yield deliver(place)
            yield from self.wait()

    def lead(self, candidate, voters):
        """Elect a leader, and often try how much it knows to be committed."""
        s = self.service
        yield elect(candidate, voters)
        if self.chance(0.6):
            yield commit(s.leading.known)
            yield commit(s.leading.known + 1)
        if self.chance(0.1):
            yield reply(s.leading.known + self.rng.choice([0, 1]))

    def begin_session(self):
        """Open, install, and deliver the installed message."""
        yield OPEN
        yield from self.wait()
        yield INSTALL
        yield from self.wait()
        session = self.service.relay.session
        place = self.place_of(lambda m: isinstance(m, Installed) and m.session == session)
        if place is not None:
            yield deliver(place)

    def commit_up_to(self, index, patience=200):
        """Copy until there are holders enough, then commit `index` or more."""
        s, rng = self.service, self.rng
        for _ in range(patience):
            log = s.leading.log
            if s.leading.known >= index or len(log) < index:
                return
            holders = s.holders(index)
            if s.rule.enough_to_commit(holders):
                own = [n for n in range(index, len(log) + 1)
                       if log[n - 1].term == s.term and s.rule.enough_to_commit(s.holders(n))]
                yield commit(rng.choice(own) if own else index)
                if not own:
                    return
            elif self.chance(0.08):
                yield commit(index)
            else:
                behind = [r for r in self.others() if not holders >> r & 1]
                # Mostly one copy at a time, so that others stay behind.
                yield copy(behind[0] if self.chance(0.5) else rng.choice(behind))
            yield from self.wait()

    def commit_all(self):
        yield from self.commit_up_to(len(self.service.leading.log))

    def copy_to(self, copies, count):
        """Copy until each of these copies holds so many entries."""
        s = self.service
        for r in copies:
            while not s.holds(r, count) and len(s.leading.log) >= count:
                yield copy(r)

    def someone(self):
        """A client that is idle, if need be because it gives up."""
        idle = self.idle_clients()
        if idle:
            return idle[0]
        client = self.rng.randrange(len(self.service.clients))
        yield abandon(client)
        return client

    def append(self, client, star, value):
        """A correction as far as the leader's log."""
        yield correct(client, star, value)
        yield from self.send_on(client, self.number_of(client), times=1)
        place = self.place_for(client, self.number_of(client), Correction)
        if place is not None:
            if self.chance(0.25):
                yield double(place)
                yield deliver(place)
            yield from self.send_on(client, self.number_of(client), times=1)

    def settle(self, client, number):
        """Reply to a request's committed entry and deliver the reply."""
        index = self.service.index_of(client, number)
        if index is not None:
            yield reply(index)
            place = self.place_for(client, number, CorrectionReply)
            if place is not None:
                yield deliver(place)

    def finish(self, client, number, patience=60):
        """Bring a request to its answer, with a few retries."""
        s = self.service
        retries = 0
        for _ in range(patience):
            if not self.waits(client, number) or retries > 3:
                return
            place = self.place_for(client, number)
            index = s.index_of(client, number)
            if place is not None and (index is None or self.chance(0.8)):
                yield deliver(place)
            elif index is not None and index > s.leading.known:
                yield from self.commit_up_to(index)
                if index > s.leading.known:
                    return
            elif index is not None and s.leading.log[index - 1].stamp.session == s.session:
                yield reply(index)
            else:
                retries += 1
                yield again(client)
            if self.chance(0.03):
                yield again(client)
            yield from self.wait()

    def read_fully(self, client, star):
        yield read(client, star)
        yield from self.finish(client, self.number_of(client))

    def correct_fully(self, client, star, value):
        yield correct(client, star, value)
        yield from self.finish(client, self.number_of(client))

    def read_from_each(self, client, star):
        """As many reads as there are copies, so that each has its turn."""
        for _ in self.service.copies:
            yield read(client, star)
            yield from self.send_on(client, self.number_of(client))

    # ------------------------------------------------ plans: clients

    def read_something(self):
        for client in self.idle_clients()[:1]:
            yield from self.read_fully(client, self.rng.choice(self.stars))

    def correct_something(self):
        for client in self.idle_clients()[:1]:
            yield from self.correct_fully(client, self.rng.choice(self.stars), self.lawful())

    def correct_unlawfully(self):
        for client in self.idle_clients()[:1]:
            yield from self.correct_fully(client, self.rng.choice(self.stars), self.unlawful())

    def finish_waiting(self):
        """Help a client that was left waiting, or let it give up."""
        waiting = [c for c, client in enumerate(self.service.clients) if client.waiting]
        if not waiting:
            return
        client = self.rng.choice(waiting)
        if self.chance(0.3 if self.service.log_full() else 0.7):
            yield again(client)
            yield from self.finish(client, self.number_of(client))
        else:
            yield abandon(client)

    # ------------------------------------------------ plans: log and leader

    def new_leader(self):
        """An election, mostly with all that makes the leader ready."""
        yield from self.lead(*self.electable())
        if self.chance(0.9):
            yield from self.begin_session()
        if self.chance(0.85):
            yield from self.commit_all()

    def get_ready(self):
        """Bring a leader that is not ready to an entry of its term."""
        s = self.service
        if not any(entry.term == s.term for entry in s.leading.log):
            yield from self.begin_session()
        yield from self.commit_all()
        if self.chance(0.3):
            # No reply for an opening entry.
            yield reply(s.leading.known)

    def catch_up(self):
        """Bring some entries to a copy."""
        s = self.service
        r = self.rng.choice(self.others())
        for _ in range(self.rng.randint(1, 8)):
            yield copy(r)
            if s.holds(r, len(s.leading.log)):
                return

    def contest(self):
        """Elections between logs that differ, with voters of every sort."""
        copies = self.service.copies
        for candidate in self.rng.sample(self.others(), len(copies)):
            rival = self.rng.choice(self.others(candidate))
            if newer(copies[rival].log, copies[candidate].log):
                yield elect(candidate, 1 << rival)
            if self.chance(0.5):
                yield elect(candidate, 1 << rival | 1 << candidate)
            if self.chance(0.3):
                yield elect(candidate, (1 << len(copies)) - 1)

    def rivals(self):
        """Several elections soon after another, with entries left uncommitted."""
        s = self.service
        for _ in range(self.rng.randint(2, 4)):
            yield from self.lead(*self.electable())
            if self.chance(0.9):
                yield from self.begin_session()
            for _ in range(self.rng.choice([0, 0, 1, 2, 3])):
                yield copy(self.rng.choice(self.others()))
            if self.chance(0.5):
                yield commit(s.leading.known + 1)
        yield from self.contest()

    def old_entry(self):
        """Two leaders in turn, and enough holders of an older term's entry."""
        s = self.service
        def age(r):
            return last_term(s.copies[r].log), len(s.copies[r].log), self.rng.random()
        first = max(self.others(), key=age)
        second = max(self.others(first), key=age)
        yield from self.lead(*self.electable_without(first, None))
        yield from self.begin_session()
        for client in self.idle_clients()[:self.rng.randint(0, 3)]:
            yield from self.append(client, self.rng.choice(self.stars), self.lawful())
        # The second leader knows nothing of the first one's entries.
        yield from self.lead(*self.electable_without(second, first))
        if s.leader != second:
            return
        yield copy(first)
        yield from self.begin_session()
        both = 1 << first | 1 << second
        yield elect(first, both)
        if self.chance(0.5):
            yield elect(second, both)
        if self.chance(0.5):
            # The first leads again; its old entries come to enough holders.
            yield from self.lead(*self.electable_without(first, second))
            index = s.copies[first].known + 1
            yield commit(index)
            while s.leader == first and index <= len(s.leading.log):
                behind = [r for r in self.others(first, second) if not s.holds(r, index)]
                if not behind or s.rule.enough_to_commit(s.holders(index)):
                    yield commit(index)
                    break
                yield copy(self.rng.choice(behind))
        if s.leader != second or s.part == 0:
            yield from self.lead(*self.electable_without(second, first))
            if s.leader != second:
                return
            yield from self.begin_session()
        yield from self.copy_to(self.others(first), len(s.leading.log))
        yield from self.commit_all()
        # The first one's log still differs, and may be as long.
        client = yield from self.someone()
        star = self.rng.choice(self.stars)
        yield from self.append(client, star, self.lawful())
        yield from self.copy_to(self.others(first), len(s.leading.log))
        yield from self.finish(client, self.number_of(client))
        yield from self.read_from_each(client, star)
        for _ in range(self.rng.randint(1, 6)):
            yield copy(first)

    def retry_elsewhere(self):
        """A retry reaches a new leader that does not know it to be committed."""
        s = self.service
        for client in self.idle_clients()[:1]:
            yield from self.append(client, self.rng.choice(self.stars), self.lawful())
            number = self.number_of(client)
            yield from self.commit_all()
            yield from self.copy_to(self.others(), s.leading.known)
            candidate = self.rng.choice(self.others(s.leader))
            yield from self.lead(*self.electable_without(candidate, None))
            yield from self.begin_session()
            for _ in range(2):
                yield again(client)
                yield from self.send_on(client, number)
                yield from self.commit_all()

    def last_entry(self):
        """The log's last entry, and what still happens when it is full."""
        s = self.service
        client = yield from self.someone()
        yield from self.append(client, self.rng.choice(self.stars), self.lawful())
        number = self.number_of(client)
        if self.chance(0.8):
            yield from self.commit_all()
        yield again(client)
        yield from self.send_on(client, number)
        yield from self.begin_session()
        yield from self.correct_something()
        yield from self.read_something()
        if not self.calm:
            yield from self.lead(*self.electable())
            yield from self.begin_session()

    # ------------------------------------------------ plans: sessions

    def new_session(self):
        """The leader's next session."""
        for _ in range(self.rng.choice([1, 1, 1, 2])):
            yield from self.begin_session()
        if self.chance(0.5):
            yield from self.commit_all()

    def late_install(self):
        """Much happens between a session's opening and its installation."""
        s = self.service
        stars = []
        for client in self.idle_clients()[:self.rng.choice([1, 1, 2])]:
            stars.append(self.rng.choice(self.stars))
            yield from self.append(client, stars[-1], self.lawful())
        yield OPEN
        yield from self.commit_all()
        if self.chance(0.4):
            yield from self.lead(*self.electable())
        yield INSTALL
        for client in self.idle_clients()[:1]:
            for star in stars + [self.rng.choice(self.stars)]:
                yield read(client, star)
                yield from self.send_on(client, self.number_of(client))
        if s.relay.session != s.session:
            yield from self.begin_session()

    def closed_relay(self):
        """The relay restarts; messages reach it while it is closed."""
        s = self.service
        for client in self.idle_clients()[:1]:
            yield read(client, self.rng.choice(self.stars))
            yield from self.send_on(client, self.number_of(client), times=2)
        for i in range(s.leading.known, 0, -1):
            if s.leading.log[i - 1].star != 0:
                yield reply(i)
                break
        yield RESTART
        if self.chance(0.7):
            yield INSTALL
        kinds = [ReadRequest, CorrectionRequest, ReadReply, CorrectionReply]
        for kind in self.rng.sample(kinds, 4):
            place = self.place_of(lambda m, kind=kind: isinstance(m, kind))
            if place is not None:
                yield deliver(place)
        yield from self.new_session()

    def same_number(self):
        """A late reply's stamp has the row's number, of another session."""
        idle = self.idle_clients()
        if len(idle) < 2:
            return
        reader, writer = idle[:2]
        star = self.rng.choice(self.stars)
        yield from self.begin_session()
        yield from self.correct_fully(writer, star, self.lawful())
        yield from self.begin_session()
        yield read(reader, star)
        number = self.number_of(reader)
        yield from self.send_on(reader, number, times=2)
        yield from self.correct_fully(writer, star, self.lawful())
        yield from self.send_on(reader, number)

    # ------------------------------------------------ plans: zones

    def late_reply(self):
        """A copy's reply is held back while its zone is corrected."""
        idle, stars = self.idle_clients(), self.settled_stars()
        if len(idle) < 2 or not stars:
            return
        reader, writer = idle[:2]
        star = self.rng.choice(stars)
        yield read(reader, star)
        number = self.number_of(reader)
        yield from self.send_on(reader, number, times=self.rng.choice([1, 2, 2]))
        for _ in range(self.rng.choice([1, 1, 2])):
            yield from self.correct_fully(writer, self.neighbour(star), self.lawful())
        if self.chance(0.5):
            yield from self.read_from_each(writer, star)
        yield from self.send_on(reader, number)

    def early_copy(self):
        """A copy is read when it has a later entry that is not committed."""
        s = self.service
        idle, stars = self.idle_clients(), self.settled_stars()
        if len(idle) < 2 or not stars:
            return
        reader, writer = idle[:2]
        star = self.rng.choice(stars)
        yield read(reader, star)
        number = self.number_of(reader)
        yield from self.send_on(reader, number, times=1)
        yield from self.append(writer, star, self.lawful())
        yield from self.copy_to(self.others(), len(s.leading.log))
        yield from self.send_on(reader, number, times=1)
        yield from self.commit_all()
        yield from self.settle(writer, self.number_of(writer))
        yield from self.send_on(reader, number)
        yield from self.finish(writer, self.number_of(writer))

    def unsettle(self):
        """A copy's reply comes when its zone has just become unsettled."""
        s, idle = self.service, self.idle_clients()
        if len(idle) < 2:
            return
        reader, writer = idle[:2]
        zones = [zone for zone, row in enumerate(s.relay.rows) if row.settled]
        if not zones:
            return
        star = self.rng.choice(zones) * 4_096 + self.rng.randint(1, 4_095)
        if self.settled_stars() and self.chance(0.4):
            star = self.rng.choice(self.settled_stars())
        yield read(reader, star)
        number = self.number_of(reader)
        yield from self.send_on(reader, number, times=2)
        value = self.lawful() if self.may_grow() and self.chance(0.3) else self.unlawful()
        yield correct(writer, self.neighbour(star), value)
        yield from self.send_on(writer, self.number_of(writer), times=1)
        if self.chance(0.2):
            yield OPEN
        yield from self.send_on(reader, number)
        if self.chance(0.5):
            yield from self.finish(writer, self.number_of(writer))

    def hidden_correction(self):
        """A retry is known already while a later correction is uncommitted."""
        idle = self.idle_clients()
        if len(idle) < 3:
            return
        first, second, reader = idle[:3]
        star = self.rng.choice(self.stars)
        yield from self.append(first, star, self.lawful())
        number = self.number_of(first)
        yield from self.commit_all()
        yield from self.append(second, star, self.lawful())
        later = self.number_of(second)
        yield again(first)
        yield from self.send_on(first, number)
        yield from self.commit_all()
        yield from self.settle(second, later)
        yield from self.send_on(second, later)
        yield from self.read_from_each(reader, star)

    def split_commit(self):
        """A copy learns of the middle of what was committed at once.

        Its late reply has a value that the committed log had at no moment.
        """
        s = self.service
        idle, stars = self.idle_clients(), self.settled_stars()
        if len(idle) < 3 or not stars:
            return
        reader, first, second = idle[:3]
        star = self.rng.choice(stars)
        elsewhere = self.rng.choice([o for o in self.stars if zone_of(o) != zone_of(star)])
        yield read(reader, star)
        number = self.number_of(reader)
        yield from self.send_on(reader, number, times=1)
        yield from self.append(first, star, self.lawful())
        yield from self.append(second, elsewhere, self.lawful())
        middle = self.number_of(second)
        yield abandon(first)
        yield from self.append(first, star, self.lawful())
        last = self.number_of(first)
        end = len(s.leading.log)
        yield from self.copy_to(self.others(), end)
        yield commit(end)
        yield from self.settle(second, middle)
        yield from self.send_on(second, middle)
        yield from self.read_from_each(second, elsewhere)
        yield from self.settle(first, last)
        yield from self.send_on(first, last)
        yield from self.send_on(reader, number)

    def early_settling(self):
        """Two corrections of a zone; only the reply to the later one settles."""
        s, idle = self.service, self.idle_clients()
        if len(idle) < 2:
            return
        first, second = idle[:2]
        star = self.rng.choice(self.stars)
        yield from self.append(first, star, self.lawful())
        earlier = self.number_of(first)
        yield from self.append(second, self.neighbour(star), self.lawful())
        later = self.number_of(second)
        yield from self.commit_up_to(len(s.leading.log) - self.rng.choice([0, 1]))
        yield from self.settle(first, earlier)
        yield from self.send_on(first, earlier)
        yield from self.read_fully(first, star)
        yield from self.commit_all()
        yield from self.finish(second, later)

    def out_of_order(self):
        """A later correction that is not appended overtakes an earlier one."""
        idle = self.idle_clients()
        if len(idle) < 2:
            return
        first, second = idle[:2]
        star = self.rng.choice(self.stars)
        overtaking = self.rng.choice(["unlawful", "known already", "uncommitted", "appended"])
        if overtaking in ("known already", "uncommitted"):
            yield from self.append(second, star, self.lawful())
            if overtaking == "known already":
                yield from self.commit_all()
        yield correct(first, self.neighbour(star), self.lawful())
        yield from self.send_on(first, self.number_of(first), times=1)
        if overtaking in ("known already", "uncommitted"):
            yield again(second)
        else:
            yield correct(second, star, self.lawful() if overtaking == "appended"
                          else self.unlawful())
        yield from self.send_on(second, self.number_of(second), times=2)
        yield from self.send_on(first, self.number_of(first), times=1)
        yield from self.finish(first, self.number_of(first))
        yield from self.finish(second, self.number_of(second))

    def wider_set(self):
        """Replies to one entry while more and more copies hold it."""
        s = self.service
        for client in self.idle_clients()[:1]:
            star = self.rng.choice(self.stars)
            yield from self.append(client, star, self.lawful())
            number = self.number_of(client)
            yield from self.commit_all()
            yield from self.settle(client, number)
            yield from self.send_on(client, number)
            yield from self.copy_to(self.others(), s.leading.known)
            yield from self.settle(client, number)
            yield from self.read_from_each(client, star)
            if not self.calm:
                yield from self.lead(*self.electable())
                yield from self.begin_session()

    def shared_front(self):
        """More copies hold an entry than hold all that is committed."""
        s = self.service
        first = yield from self.someone()
        star = self.rng.choice(self.stars)
        yield from self.append(first, star, self.lawful())
        number = self.number_of(first)
        index = len(s.leading.log)
        yield from self.copy_to(self.others(), index)
        for second in self.idle_clients()[:1]:
            elsewhere = self.rng.choice([o for o in self.stars if zone_of(o) != zone_of(star)])
            yield from self.append(second, elsewhere, self.lawful())
        yield from self.commit_all()
        behind = [r for r in self.others() if not s.holds(r, s.leading.known)]
        yield from self.settle(first, number)
        yield from self.send_on(first, number)
        yield from self.read_from_each(first, star)
        for r in behind[:1]:
            yield from self.copy_to([r], len(s.leading.log))
            yield from self.lead(*self.electable_without(r, None))
            yield from self.begin_session()

    # ------------------------------------------------ steps without a plan

    def leaderless_step(self):
        """Before the first election."""
        rng = self.rng
        return rng.choice([OPEN, INSTALL, RESTART, copy(0), commit(rng.randint(0, 2)),
                           reply(rng.randint(0, 2)), read(0, rng.choice(self.stars)),
                           deliver(0), elect(rng.randrange(3), 0)])

    def draining_step(self):
        """There is much under way: a message leaves the table."""
        if self.chance(0.25):
            return lose(self.rng.randrange(len(self.service.messages)))
        return self.random_delivery()

    def random_delivery(self):
        """Any message, but rarely one that makes the log grow too soon."""
        s = self.service
        place = self.rng.randrange(len(s.messages))
        grows = isinstance(s.messages[place], (Correction, Installed))
        if grows and not self.may_grow() and self.chance(0.9):
            return lose(place)
        return deliver(place)

    def random_step(self):
        s, rng = self.service, self.rng
        if self.flood and self.chance(0.7):
            return self.flooding_step()
        client, r = rng.randrange(len(s.clients)), rng.randrange(len(s.copies))
        log = len(s.leading.log) if s.leader is not None else 0
        known = s.leading.known if s.leader is not None else 0
        star = rng.choice(self.stars)
        place = rng.randrange(max(1, len(s.messages)))
        lawful = self.may_grow() and self.chance(0.7)
        wild = 0.0 if self.calm else 1.0
        step, = rng.choices([
            self.random_delivery() if s.messages else deliver(0),
            lose(place),
            double(place),
            again(client),
            abandon(client),
            RESTART,
            elect(r, rng.randrange(1 << len(s.copies))),
            self.failing_election(),
            OPEN,
            INSTALL,
            copy(r),
            commit(rng.randint(0, log + 1)),
            reply(rng.choice([rng.randint(0, log + 1), rng.randint(0, known), known])),
            read(client, star),
            correct(client, star, self.lawful() if lawful else self.unlawful()),
            self.odd_step(),
        ], [6, 0.7, 1.5, 1, 0.4, 0.1 * wild, 0.4 * wild, 0.4, 0.05 + 0.1 * wild, 0.3, 1, 1, 1,
            1, 0.5, 1.2])
        return step

    def failing_election(self):
        """A voter's log is newer, or there are not enough voters, or both."""
        copies = self.service.copies
        candidate = self.rng.choice(self.others())
        ahead = [r for r in self.others() if newer(copies[r].log, copies[candidate].log)]
        if not ahead:
            return elect(candidate, 1 << self.rng.randrange(8))
        voters = 1 << self.rng.choice(ahead)
        return elect(candidate, self.rng.choice([voters, voters | 1 << candidate,
                                                 (1 << len(copies)) - 1]))

    def flooding_step(self):
        """Fill the table, and try everything on a full one."""
        s, rng = self.service, self.rng
        place = rng.randrange(len(s.messages) + 1)
        client, star = rng.randrange(len(s.clients)), rng.choice(self.stars)
        fillers = [double(place)] * 5 + [again(client), read(client, star)]
        if not s.table_full():
            return rng.choice(fillers)
        known = s.leading.known if s.leader is not None else 0
        return rng.choice(fillers + [
            again(client), double(len(s.messages)), abandon(client),
            correct(client, star, self.unlawful()), read(client, 0), OPEN, INSTALL,
            reply(known), reply(rng.randint(0, known + 1))])

    def odd_step(self):
        """Arguments that are wrong, or nearly so."""
        s, rng = self.service, self.rng
        clients, copies = len(s.clients), len(s.copies)
        client = rng.choice([clients, clients + 1, 255])
        r = rng.choice([rng.randrange(copies), copies, copies + 1, 128, 255])
        asking = rng.choice(self.idle_clients() or [0])
        place = rng.choice([len(s.messages), len(s.messages) + 1, s.table_size, 256, 65_536,
                            2 ** 32 - 1])
        n = rng.choice([0, s.capacity, s.capacity + 1, 4_097, 65_536, 65_537, 2 ** 31,
                        2 ** 32 - 1])
        return rng.choice([
            elect(r, rng.choice([0, 1, 1 << copies, 1 << copies | 3, 128, 255])),
            read(asking, rng.choice(NO_STARS)), read(client, rng.choice(self.stars)),
            correct(asking, rng.choice(NO_STARS), self.lawful()),
            correct(client, rng.choice(self.stars), self.unlawful()),
            again(client), abandon(client),
            deliver(place), lose(place), double(place),
            copy(r), commit(n), reply(n)])
