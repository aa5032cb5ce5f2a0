"""Fields to draw: size * size * size distances in voxels, x fastest, then y, then z. Below 0 is inside."""
from array import array
from random import Random

LEAST = 1e-6


def noise(size, random):
    """Any value from -1 to 1 anywhere: every case and tiling comes up."""
    return array("f", (2 * random.random() - 1 for _ in range(size ** 3)))


def whole(size, random):
    """Whole numbers from -4 to 4, a ninth of them zeros."""
    return array("f", (int(9 * random.random()) - 4 for _ in range(size ** 3)))


def sphere(size, random, rough=0.0):
    """The distance to a sphere, and up to `rough` voxels off it either way."""
    middle, radius = size / 2 - 0.3, 0.4 * size
    places = [(x - middle) ** 2 for x in range(size)]
    return array("f", ((xx + yy + zz) ** 0.5 - radius + rough * (2 * random.random() - 1)
                       for zz in places for yy in places for xx in places))


def rough(size, random):
    """A sphere with noise of up to a voxel."""
    return sphere(size, random, 1.0)


FIELDS = {"noise": noise, "whole": whole, "sphere": sphere, "rough": rough}


def close(values, size):
    """Puts the grid's border outside, above 0, so that no surface is cut off there."""
    ends = (0, size - 1)
    for place in range(size ** 3):
        if place % size in ends or place // size % size in ends or place // size ** 2 in ends:
            values[place] = max(abs(values[place]), LEAST)


def lift(values, sign):
    """Magnitudes below 1e-6 become 1e-6; a zero gets the given sign, 1 or -1."""
    for place, value in enumerate(values):
        if abs(value) < LEAST:
            values[place] = LEAST if value > 0 or (value == 0 and sign > 0) else -LEAST


def make(name, size, seed, zeros="above"):
    """A closed field. `zeros`: 'above' and 'below' lift them to that side of 0, 'keep' leaves them."""
    values = FIELDS[name](size, Random(seed))
    if zeros != "keep":
        lift(values, 1 if zeros == "above" else -1)
    close(values, size)
    return values
