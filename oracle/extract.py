#!/usr/bin/env python3
"""Takes handle_cube, its five tests and their tables out of a checkout of the source, verbatim.

    extract.py SOURCE OUT.rs           writes OUT.rs, then checks it
    extract.py --check SOURCE OUT.rs   checks it alone

SOURCE has src/voxel/. OUT.rs is a part of choice/rust.rs. It holds each function five times: for Looked and for Bare
as it stands, and for Noted, Counted and Altered with lines put in between that note what is met on the way; such a
line ends in MARK. One expression is replaced, LOOKUP in handle_cube by GIVEN, but for Looked, which looks a cube's
number up in the source's own CASES. The tilings, add_faces and compute_c_vertex are items of choice/rust.rs under the
same names, so their calls stand as they are; so are, for Altered, the tables items of choice/altered.rs. CASES stands
in a module by itself; suited signs are drawn from it. from_voxel, which numbers a cube, stands over a grid of eight
values, choice/voxels.rs.

The check cuts the source another way, by lines, and asks that OUT.rs without its noted lines and with
LOOKUP back in its place is those bytes in FRAME, and that the noted lines are those of NOTES, as often
as they should be and in their places.
"""
import hashlib
import re
import sys
from pathlib import Path

FILES = ["meshing/marching_cubes.rs", "meshing/lookup_table.rs", "utils.rs"]
FUNCTIONS = ["handle_cube", "test_face", "test_interior", "interior_ambiguity",
             "interior_ambiguity_verification", "interior_test_case13"]
TABLES = ["TEST_3", "TEST_4", "TEST_6", "TEST_7", "TEST_10", "TEST_12", "TEST_13", "SUB_CONFIG_13"]

# How a cube of a grid gets its number.
NUMBERING = "from_voxel"
LEAST = "const MIN_ABS_VERTEX_VALUE: f32 = "

# The lookup of case and configuration, which are given instead.
LOOKUP, GIVEN = "CASES[self.cube.id as usize]", "self.cube.given"

# In a function, after each line of this form comes this note; so many times.
NOTES = {
    "handle_cube": [
        (r"let offset = SUB_CONFIG_13\[subconfig\].*", "self.note_sub_configuration(subconfig);", 1)],
    "test_face": [
        (r"fn .* \{", "self.note_face();", 1)],
    "interior_ambiguity": [
        (r"fn .* \{", "self.note_pick();", 1),
        (r"edge = \d+;", "self.note_match();", 12)],
    "interior_ambiguity_verification": [
        (r"fn .* \{", "self.note_edge(edge);", 1),
        (r"let t = .*;", "self.note_t(t);", 12),
        (r"let verify = .*;", "self.note_product(verify);", 12)],
    "interior_test_case13": [
        (r"fn .* \{", "self.note_case13();", 1),
        (r"let t2 = .*;", "self.note_times(delta, t1, t2);", 1),
        (r"let y2 = .*;", "self.note_places([x1, y1, x2, y2]);", 1)],
}
MARK = " // a note, not of the source\n"

FRAME = """// Made by oracle/extract.py from the source; made anew at each build.
impl Bare {{
{bare}}}

mod by_number {{
use super::{{Numbered as Cube, *}};
use super::sets::CASES;

impl Looked {{
{own}
    #[inline(always)]
    pub fn handle(&mut self, cube: Cube) {{
        self.handle_cube(Some(cube));
    }}
}}
}}

impl Noted {{
{noted}}}

impl Counted {{
{noted}}}

mod over_altered_tables {{
use super::*;
use crate::altered::{{{names}}};

impl Altered {{
{noted}
    pub fn handle(&mut self, cube: Cube) {{
        self.handle_cube(Some(cube));
    }}
}}
}}

{tables}
pub mod sets {{
{cases}}}

pub mod numbering {{
use crate::voxels::{{Cube, Vec3i, Vertex, VolumeGrid}};

{least}
{offsets}
impl Cube {{
{numbering}}}

pub fn numbered(grid: &VolumeGrid) -> Option<Cube> {{
    Cube::from_voxel(CUBE_OFFSETS[0], grid)
}}
}}
"""


def fail(what):
    sys.exit(f"extract: {what}")


def read(folder):
    place = Path(folder) / "src" / "voxel"
    for file in FILES:
        if not (place / file).is_file():
            fail(f"no {file} in {place}")
    return [(place / file).read_bytes().decode() for file in FILES]


def only(found, what):
    if len(found) != 1:
        fail(f"{what}: found {len(found)} times")
    return found[0]


def by_braces(text, head, opening, closing, after):
    """From the one line that starts with head to the bracket that closes its first one, and `after`."""
    start = only([m.start() for m in re.finditer("^" + re.escape(head), text, re.M)], head)
    body = text.index(" = [", start) + 3 if opening == "[" else start
    depth = 0
    skipped = r'"(?:\\.|[^"\\])*"|//[^\n]*|/\*.*?\*/'
    for token in re.compile(f"{skipped}|[{re.escape(opening + closing)}]", re.S).finditer(text, body):
        depth += (token.group() == opening) - (token.group() == closing)
        if depth == 0 and token.group() == closing:
            end = token.end() + len(after)
            if text[token.end():end] != after:
                fail(f"{head}: unlooked-for end")
            return text[start:end]
    fail(f"{head}: no end")


def by_lines(text, head, last):
    """From the one line that starts with head to the first line after it that is `last`."""
    lines = text.splitlines(keepends=True)
    start = only([i for i, line in enumerate(lines) if line.startswith(head)], head)
    return "".join(lines[start:lines.index(last, start) + 1])


def function(cut, text, name):
    head = f"    fn {name}("
    return by_braces(text, head, "{", "}", "\n") if cut is by_braces else by_lines(text, head, "    }\n")


def table(cut, text, name):
    head = f"pub const {name}: "
    return by_braces(text, head, "[", "]", ";\n") if cut is by_braces else by_lines(text, head, "];\n")


def given(text):
    only(text.split(LOOKUP)[1:], LOOKUP)
    return text.replace(LOOKUP, GIVEN)


def noted(name, text):
    lines = []
    for line in text.splitlines(keepends=True):
        lines.append(line)
        lines += [note + MARK for form, note, _ in NOTES.get(name, []) if re.fullmatch(form, line.strip())]
    return "".join(lines)


# `form` makes handle_cube take what is given; `note` puts the notes in.
def framed(parts, form=lambda text: text, note=lambda name, text: text):
    own, tables, cases, numbering = parts
    functions = {**own, "handle_cube": form(own["handle_cube"])}
    return FRAME.format(
        own="\n".join(own.values()),
        bare="\n".join(functions.values()),
        noted="\n".join(note(name, text) for name, text in functions.items()),
        names=", ".join(TABLES), tables="\n".join(tables), cases=cases, **numbering)


def cuts(cut, source):
    functions = {name: function(cut, source[0], name) for name in FUNCTIONS}
    numbering = {
        "least": only(re.findall(f"^{re.escape(LEAST)}.*\n", source[0], re.M), LEAST),
        "offsets": table(cut, source[2], "CUBE_OFFSETS"),
        "numbering": function(cut, source[0], NUMBERING),
    }
    return functions, [table(cut, source[1], name) for name in TABLES], table(cut, source[1], "CASES"), numbering


def write(source, out):
    Path(out).write_bytes(framed(cuts(by_braces, source), given, noted).encode())


def check(source, out):
    if any(ours in text for ours in (MARK, GIVEN) for text in source):
        fail("the source has words of ours")
    parts = cuts(by_lines, source)
    text = Path(out).read_bytes().decode()
    lines = text.splitlines(keepends=True)
    bare = "".join(line for line in lines if not line.endswith(MARK))
    if bare.count(GIVEN) != 4 or bare.count(LOOKUP) != 1 or bare.replace(GIVEN, LOOKUP) != framed(parts):
        fail("the extract is not verbatim")
    notes = [line[:-len(MARK)] for line in lines if line.endswith(MARK)]
    wanted = [note for parts in NOTES.values() for _, note, times in parts for _ in range(3 * times)]
    if sorted(notes) != sorted(wanted):
        fail("the notes are not those of the list")
    if text.replace(GIVEN, LOOKUP) != framed(parts, note=noted):
        fail("a note is not in its place")
    report(source, parts, notes)


def report(source, parts, notes):
    for name, text in zip(FILES, source):
        print(f"{Path(name).name} {hashlib.sha256(text.encode()).hexdigest()}", file=sys.stderr)
    functions, tables, _, numbering = parts
    size = sum(len(text) for text in functions.values())
    print(f"the extract is verbatim, but for the lookup in four copies of five: {len(functions)} functions of {size} "
          f"bytes, {len(tables)} tables and CASES; {len(notes) // 3} notes in each noted copy; {NUMBERING} of "
          f"{len(numbering['numbering'])} bytes", file=sys.stderr)


def main(words):
    check_alone = words[:1] == ["--check"]
    words = words[check_alone:]
    if len(words) != 2:
        fail("usage: extract.py [--check] SOURCE OUT.rs")
    source = read(words[0])
    if not check_alone:
        write(source, words[1])
    check(source, words[1])


main(sys.argv[1:])
