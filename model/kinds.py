"""Record kinds: what a star's value is.

A kind says which 16 bytes are a well-formed value and which well-formed values
are lawful, by the value alone.  A well-formed value is written as 16 bytes of
its own, so the service keeps the bytes and compares them: minus zero and zero
are two magnitudes.  Fields of several bytes are little-endian.
"""

import math
import struct
from dataclasses import dataclass

BLANK = bytes(16)


class Malformed(ValueError):
    """These bytes, or these fields, are no value of the kind."""


@dataclass(frozen=True)
class Place:
    """Where a star stands: milliarcseconds, milliarcseconds a year, a year."""

    right_ascension: int
    declination: int
    motion_in_right_ascension: int
    motion_in_declination: int
    year: int

    LAYOUT = struct.Struct("<IihhH2s")

    @classmethod
    def parse(cls, data):
        if len(data) != 16:
            raise Malformed("a value has 16 bytes")
        *fields, zeros = cls.LAYOUT.unpack(data)
        if any(zeros):
            raise Malformed("a zero byte is not zero")
        return cls(*fields)

    def write(self):
        try:
            return self.LAYOUT.pack(
                self.right_ascension, self.declination,
                self.motion_in_right_ascension, self.motion_in_declination,
                self.year, bytes(2))
        except struct.error as error:
            raise Malformed(str(error)) from error

    def lawful(self):
        return (self.right_ascension <= 1_295_999_999
                and -324_000_000 <= self.declination <= 324_000_000
                and -20_000 <= self.motion_in_right_ascension <= 20_000
                and -20_000 <= self.motion_in_declination <= 20_000
                and 1900 <= self.year <= 2100)


@dataclass(frozen=True, eq=False)
class Brightness:
    """How bright a star is: two magnitudes and a year."""

    first: float
    second: float
    year: int

    LAYOUT = struct.Struct("<ffH6s")

    @classmethod
    def parse(cls, data):
        if len(data) != 16:
            raise Malformed("a value has 16 bytes")
        first, second, year, zeros = cls.LAYOUT.unpack(data)
        if any(zeros):
            raise Malformed("a zero byte is not zero")
        if math.isnan(first) or math.isnan(second):
            raise Malformed("a magnitude is not a number")
        return cls(first, second, year)

    def write(self):
        if math.isnan(self.first) or math.isnan(self.second):
            raise Malformed("a magnitude is not a number")
        try:
            return self.LAYOUT.pack(self.first, self.second, self.year, bytes(6))
        except (struct.error, OverflowError) as error:
            raise Malformed(str(error)) from error

    def lawful(self):
        return (-30 <= self.first <= 30
                and -30 <= self.second <= 30
                and 1900 <= self.year <= 2100)

    def __eq__(self, other):
        return isinstance(other, Brightness) and self.write() == other.write()

    def __hash__(self):
        return hash(self.write())


def well_formed(kind, data):
    """Are these bytes a value of the kind?"""
    try:
        kind.parse(data)
    except Malformed:
        return False
    return True


def lawful(kind, data):
    """Are these well-formed bytes a lawful value of the kind?"""
    return kind.parse(data).lawful()
