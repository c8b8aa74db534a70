#!/usr/bin/env python3
"""Writes the map files of this folder: four_points.map, city.map and largest.map.

A map file holds unsigned 16-bit numbers, low byte first: how many points (n) and arcs (m), then for
each point the place of its first arc and how many it has, then for each arc its number, the point it
leads to, its seconds, its climb and its toll. The arcs of a point stand together, points in order.

The files are the same at every run: the generator below has a fixed seed and no other source of chance.
"""
import os
import struct

FOLDER = os.path.dirname(os.path.abspath(__file__))


def write_map(name, points, arcs):
    """`arcs` is a list of (number, tail, head, seconds, climb, toll), in any order of tails."""
    assert 1 <= points <= 1024 and len(arcs) <= 4096
    assert len({number for number, *_ in arcs}) == len(arcs)
    rows = sorted(arcs, key=lambda arc: arc[1])  # stable: within a point the order is kept
    fields = [points, len(rows)]
    offset = 0
    for point in range(points):
        length = sum(1 for arc in rows if arc[1] == point)
        fields += [offset, length]
        offset += length
    assert offset == len(rows)
    for number, _, head, seconds, climb, toll in rows:
        assert 0 <= number < 4096 and 0 <= head < points
        assert 0 <= seconds <= 3600 and 0 <= climb <= 400 and 0 <= toll <= 10000
        fields += [number, head, seconds, climb, toll]
    with open(os.path.join(FOLDER, name), "wb") as file:
        file.write(struct.pack("<%dH" % len(fields), *fields))


class Chance:
    """A linear congruential generator, so that the files depend on no library's generator."""

    def __init__(self, seed):
        self.state = seed

    def below(self, bound):
        self.state = (self.state * 6364136223846793005 + 1442695040888963407) % 2**64
        return (self.state >> 33) % bound


def four_points():
    arcs = [
        (0, 0, 1, 60, 0, 0),
        (1, 0, 2, 30, 80, 0),
        (2, 1, 3, 40, 10, 0),
        (3, 2, 1, 20, 0, 0),
        (4, 2, 3, 90, 0, 150),
        (5, 3, 0, 50, 20, 0),
    ]
    write_map("four_points.map", 4, arcs)


def reaches_all(points, pairs):
    """Whether every point is reached from point 0 over these (tail, head) pairs."""
    heads = [[] for _ in range(points)]
    for tail, head in pairs:
        heads[tail].append(head)
    seen = {0}
    stack = [0]
    while stack:
        for head in heads[stack.pop()]:
            if head not in seen:
                seen.add(head)
                stack.append(head)
    return len(seen) == points


def strongly_connected(points, arcs):
    pairs = [(tail, head) for _, tail, head, *_ in arcs]
    return reaches_all(points, pairs) and reaches_all(points, [(head, tail) for tail, head in pairs])


def city():
    """25 by 40 crossings. A hill lies to the east; a river with five toll bridges runs after row 12.

    Of five streets or avenues three are main roads, with traffic both ways, and two are one-way, some
    to either side. The ring around the city is a main road, and every crossing can reach every other.
    """
    rows, columns = 25, 40
    chance = Chance(2024)
    height = lambda row, column: max(0, 12 * (column - 24)) + 3 * (row % 4)
    arcs = []

    def road(tail, head, main):
        (r, c), (s, d) = tail, head
        bridge = {r, s} == {12, 13}
        if bridge and c % 8 != 4 and c not in (0, columns - 1):
            return
        seconds = (20 if main else 35) + chance.below(30)
        climb = max(0, height(s, d) - height(r, c))
        toll = 100 + 50 * chance.below(4) if bridge and c % 8 == 4 else 0
        arcs.append((len(arcs), r * columns + c, s * columns + d, seconds, climb, toll))

    def street(ends, line, last):
        near, far = ends
        main = line % 5 in (0, 2, 3) or line == last
        if main or line % 2 == 0:
            road(near, far, main)
        if main or line % 2 == 1:
            road(far, near, main)

    for r in range(rows):
        for c in range(columns - 1):
            street(((r, c), (r, c + 1)), r, rows - 1)
    for c in range(columns):
        for r in range(rows - 1):
            street(((r, c), (r + 1, c)), c, columns - 1)
    assert strongly_connected(rows * columns, arcs)
    write_map("city.map", rows * columns, arcs)
    return len(arcs)


def largest():
    """As many points and arcs as a file may have: a torus of 32 by 32 with four arcs from each point."""
    side = 32
    chance = Chance(4096)
    arcs = []
    for r in range(side):
        for c in range(side):
            for s, d in ((r, c + 1), (r + 1, c), (r, c - 1), (r - 1, c)):
                head = (s % side) * side + d % side
                # The numbers run backward, so that no number is the place of its own arc.
                arcs.append((4095 - len(arcs), r * side + c, head, 1 + chance.below(3600), chance.below(401), chance.below(10001)))
    assert strongly_connected(side * side, arcs)
    write_map("largest.map", side * side, arcs)


if __name__ == "__main__":
    four_points()
    city()
    largest()
