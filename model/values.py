"""Random values of each record kind: lawful, unlawful and malformed ones.

The bounds come often, on both sides.
"""

import struct

from kinds import BLANK, Brightness, Place


def lawful_place(rng):
    return Place(
        rng.choice([0, 1_295_999_999] + [rng.randrange(1_296_000_000)] * 6),
        rng.choice([-324_000_000, 324_000_000] + [rng.randint(-324_000_000, 324_000_000)] * 6),
        rng.choice([-20_000, 20_000] + [rng.randint(-20_000, 20_000)] * 6),
        rng.choice([-20_000, 20_000] + [rng.randint(-20_000, 20_000)] * 6),
        rng.choice([1900, 2100] + [rng.randint(1900, 2100)] * 6)).write()


def unlawful_place(rng):
    fields = list(struct.unpack("<IihhH", lawful_place(rng)[:14]))
    field, near, far = rng.choice([
        (0, [1_296_000_000], [2 ** 32 - 1]),
        (1, [324_000_001, -324_000_001], [2 ** 31 - 1, -2 ** 31]),
        (2, [20_001, -20_001], [32_767, -32_768]),
        (3, [20_001, -20_001], [32_767, -32_768]),
        (4, [1899, 2101], [0, 65_535])])
    fields[field] = rng.choice(near if rng.random() < 0.8 else far)
    return rng.choice([BLANK] + [Place(*fields).write()] * 9)


def malformed_place(rng):
    at = rng.choice([14, 15])
    value = bytearray(lawful_place(rng))
    value[at] = rng.randint(1, 255)
    return bytes(value)


def magnitude(rng):
    """The bytes of a lawful magnitude."""
    return rng.choice(
        [struct.pack("<f", m) for m in (-30.0, 30.0, 0.0, -0.0)]
        + [b"\x01\0\0\0", b"\x01\0\0\x80"]                   # nearest to zero
        + [struct.pack("<f", rng.uniform(-30, 30))] * 12)


def odd_magnitude(rng):
    """The bytes of an unlawful magnitude: just beyond 30, far, or infinite."""
    near = [b"\x01\0\xf0\x41", b"\x01\0\xf0\xc1"]
    far = [b"\0\0\x80\x7f", b"\0\0\x80\xff", b"\xff\xff\x7f\x7f", b"\xff\xff\x7f\xff"]
    return rng.choice(near if rng.random() < 0.6 else far)


def no_magnitude(rng):
    """The bytes of a NaN, quiet or signalling, of either sign."""
    return rng.choice([b"\0\0\xc0\x7f", b"\0\0\xc0\xff", b"\x01\0\x80\x7f", b"\x01\0\x80\xff",
                       b"\xff\xff\xff\x7f", b"\xff\xff\xff\xff"])


def brightness(first, second, year):
    return first + second + struct.pack("<H", year) + bytes(6)


def lawful_year(rng):
    return rng.choice([1900, 2100] + [rng.randint(1900, 2100)] * 6)


def lawful_brightness(rng):
    return brightness(magnitude(rng), magnitude(rng), lawful_year(rng))


def unlawful_brightness(rng):
    return rng.choice([
        brightness(odd_magnitude(rng), magnitude(rng), lawful_year(rng)),
        brightness(magnitude(rng), odd_magnitude(rng), lawful_year(rng)),
        brightness(magnitude(rng), magnitude(rng), rng.choice([1899, 1899, 2101, 2101, 65_535])),
        BLANK])


def malformed_brightness(rng):
    value = bytearray(lawful_brightness(rng))
    flaw = rng.randrange(3)
    if flaw == 0:
        value[0:4] = no_magnitude(rng)
    elif flaw == 1:
        value[4:8] = no_magnitude(rng)
    else:
        value[rng.randint(10, 15)] = rng.randint(1, 255)
    return bytes(value)


LAWFUL = {Place: lawful_place, Brightness: lawful_brightness}
UNLAWFUL = {Place: unlawful_place, Brightness: unlawful_brightness}
MALFORMED = {Place: malformed_place, Brightness: malformed_brightness}
