"""Vote rules: which sets of copies are enough to commit, and which to elect.

A rule is made for a number of copies, which becomes the service's.  A set of
copies is a number with the bit of value 2**r for copy r; a bit for no copy
counts nothing.  A rule may be used if two laws hold: a set enough to commit
and a set enough to elect always share a copy, and the set of all copies is
enough for both.
"""


def members(copies, copy_set):
    """The copies of a set, lowest first, of a service of so many copies."""
    return [r for r in range(copies) if copy_set >> r & 1]


class Majority:
    """More than half of the copies, to commit and to elect."""

    def __init__(self, copies):
        self.copies = copies

    def enough_to_commit(self, copy_set):
        return 2 * len(members(self.copies, copy_set)) > self.copies

    def enough_to_elect(self, copy_set):
        return 2 * len(members(self.copies, copy_set)) > self.copies


class EveryCopy:
    """All copies to commit, any one copy to elect."""

    def __init__(self, copies):
        self.copies = copies

    def enough_to_commit(self, copy_set):
        return len(members(self.copies, copy_set)) == self.copies

    def enough_to_elect(self, copy_set):
        return len(members(self.copies, copy_set)) >= 1


def laws_hold(rule):
    """Try both laws on every pair of sets."""
    every_set = range(2 ** rule.copies)
    electing = [s for s in every_set if rule.enough_to_elect(s)]
    committing = [s for s in every_set if rule.enough_to_commit(s)]
    everyone = 2 ** rule.copies - 1
    return (all(c & e for c in committing for e in electing)
            and rule.enough_to_commit(everyone)
            and rule.enough_to_elect(everyone))
