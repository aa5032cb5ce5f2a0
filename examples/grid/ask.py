"""From a grid of distances to a choice for each cube, one call a layer."""
from array import array

from chooser import mc33


def corner_steps(tables, size):
    """How far behind a cube's first place in the grid the value of each corner stands."""
    return [x + size * (y + size * z) for x, y, z in tables.offsets]


def ask_layer(tables, values, size, z):
    """The places of a layer's cubes and their choices, by the signs of their corners."""
    steps = corner_steps(tables, size)
    places = [(z * size + y) * size + x for y in range(size - 1) for x in range(size - 1)]
    corners = array("f", (values[place + step] for place in places for step in steps))
    return zip(places, mc33.choices(mc33.choose_list_signs(corners)))


def ask(tables, values, size):
    """All cubes that are not empty: (place, choice)."""
    return [cube for z in range(size - 1) for cube in ask_layer(tables, values, size, z) if cube[1].code]
