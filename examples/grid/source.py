"""The tables that a drawing needs, read from a checkout of the source: this repository does not hold them."""
import ast
import re
from pathlib import Path

from chooser import mc33


def _read(file):
    if not file.is_file():
        raise SystemExit(f"no {file}: SOURCE has to be a checkout of baby_shark")
    return file.read_text()


def _table(text, name):
    found = re.search(rf"pub const {name}: [^=]*= (\[.*?\n\]);", text, re.S)
    return ast.literal_eval(found.group(1))


def _columns(row):
    return [row] if isinstance(row[0], int) else row


class Tables:
    """tilings[code][row][column] the numbers of a tiling, three a triangle; edges[number] the two corners of an edge;
    offsets[corner] the x, y, z of a corner."""

    def __init__(self, checkout):
        voxel = Path(checkout) / "src" / "voxel"
        text = re.sub(r"/\*.*?\*/|//[^\n]*", "", _read(voxel / "meshing" / "lookup_table.rs"), flags=re.S)
        self.tilings = [None]
        for name in mc33.TILINGS.values():
            self.tilings.append([_columns(row) for row in _table(text, "TILING_" + name)])
        ends = re.findall(r"(\d+) => Self \{ v1: (\d), v2: (\d) \}", text)
        self.edges = [(int(first), int(second)) for number, first, second in ends if number != "12"]
        offsets = _read(voxel / "utils.rs").split("CUBE_OFFSETS")[1]
        self.offsets = [tuple(map(int, place)) for place in re.findall(r"new\((\d), (\d), (\d)\)", offsets)]
