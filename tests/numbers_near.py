"""Numbers near the places where document 01's rules turn."""

from math import isqrt

from evaluator import M

ANCHORS = [(0, 0, 0, (1 << scale) // 2, 1 << scale, 1 << scale, isqrt(M << scale), M) for scale in range(31)]
TOO_LARGE = (M + 1, -M - 1, M + 2, 1 << 32, -(1 << 32), (1 << 32) + 5, (1 << 62) + 1, (1 << 63) - 1, -(1 << 63), 1 - (1 << 63))


def size_near(rng, scale):
    """A size near 0, h, Q, the square root of M·Q or M, or of any number of bits."""
    if rng.random() < 0.6:
        return abs(rng.choice(ANCHORS[scale]) + rng.randrange(-2, 3))
    return rng.getrandbits(rng.randrange(1, 32))


def number_near(rng, scale):
    return size_near(rng, scale) * rng.choice((1, -1))


def permitted(rng, scale):
    """A constant that a formula may hold."""
    return max(-M, min(M, number_near(rng, scale)))


def doubt(rng, scale, room):
    """A stray or a margin of at most room: often none, small or all that there is room for."""
    pick = rng.random()
    if pick < 0.25:
        return 0
    if pick < 0.6:
        return min(room, rng.randrange(1, 9))
    if pick < 0.65:
        return room
    if pick < 0.8:
        return rng.randrange(min(room, 1 << scale) + 1)
    return min(room, size_near(rng, scale) >> rng.randrange(0, 12))


def reading(rng, scale, parts):
    """A plain value, a ball or a matryoshka whose reach is at most M."""
    value = [permitted(rng, scale)]
    room = M - abs(value[0])
    for _ in range(parts - 1):
        value.append(doubt(rng, scale, room))
        room -= value[-1]
    return tuple(value)
