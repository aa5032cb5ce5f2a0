#!/usr/bin/env python3
"""Holds the tables of names that stand in several languages to one: the tilings' names to the proved code's, the
readings to the proved figures, and the configurations, the refusals' texts, the trusts and the functions to the
header's, which header.c beside this holds to the library. Prints a line for each; status 1 where one differs."""
import inspect
import re
import sys
from pathlib import Path

TOP = Path(__file__).resolve().parent.parent
sys.path.insert(0, str(TOP / "python"))
import mc33  # noqa: E402
from mc33.library import FUNCTIONS  # noqa: E402
from mc33.routines import TRUSTS  # noqa: E402

header = (TOP / "include/mc33.h").read_text()
using = (TOP / "docs/USING.md").read_text()
rust = "".join(path.read_text() for path in sorted((TOP / "rust/src").glob("*.rs")))
wrong = 0


def within(text, start, end):
    return text.split(start, 1)[1].split(end, 1)[0]


def hold(what, found, wanted):
    global wrong
    wrong += found != wanted
    print(f"{what}: {len(found)} as expected" if found == wanted else f"{what}: {found}, expected {wanted}")


def quoted(text):
    return re.findall(r'"([^"]*)"', text)


def numbers(text):
    return [int(number) for number in re.findall(r"\d+", text)]


def tilings():
    code = (TOP / "crates/tilings/src/lib.rt").read_text()
    wanted = {int(number): name for name, number in re.findall(r"pub const TILING_(\w+): u8 = (\d+);", code)}
    listed = [wanted[number] for number in sorted(wanted)]
    hold("tilings, the header", quoted(within(header, "mc33_tiling_name(uint8_t code)", "};"))[1:], listed)
    drawn = re.findall(r"\b(\d+) (\d+(?:_\d+)*_?)(?= |\n)", within(header, "(mc33_tiling_name):", "* Link with"))
    hold("tilings, the header's head", {int(number): name for number, name in drawn}, wanted)
    hold("tilings, Rust", quoted(within(rust, "const NAMES: [&str; 38] = [", "];")), listed)
    hold("tilings, Python", mc33.TILINGS, wanted)
    table = re.findall(r"\b(\d+): (\d+(?:_\d+)*_?)(?=,| )", within(using, "| case | configurations |", "\n\n"))
    hold("tilings, USING", {int(number): name for number, name in table}, wanted)


def configurations():
    wanted = numbers(within(header, "static const signed char numbers[15] = {", "}"))
    hold("configurations, Rust", numbers(within(rust, "const NUMBERS: [i8; 15] = [", "]")), wanted)
    found = [mc33.CONFIGURATIONS[case] for case in range(15)]
    hold("configurations, Python", [0 if case == range(-1, 0) else len(case) for case in found], wanted)
    rows = re.findall(r"^\| (\d+) \| (\d+) \|", within(using, "| case | configurations |", "\n\n"), re.M)
    hold("configurations, USING", [0] + [int(number) for _, number in rows], wanted)


def readings():
    figures = (TOP / "crates/choice/specs/Figures.antt").read_text()
    listed = re.findall(r"^    (?:∷ )?(none|figure \d+ \d+ \d+)$", within(figures, "\nfigures =\n", "∷ []"), re.M)
    wanted = [numbers(figure)[1:] or [0, 0] for figure in listed]
    most = [last for _, last in wanted]
    hold("readings, the header", numbers(within(header, "static const signed char most[15] = {", "}")), most)
    hold("readings, Rust", numbers(within(rust, "const MOST: [u8; 15] = [", "]")), most)
    hold("readings, Python", [mc33.MOST_READINGS[case] for case in range(15)], most)
    rows = re.findall(r"^\| ([\d, ]+) \|.*\| (\d+) \| (\d+) \|$", within(using, "| case | makes |", "\n\n"), re.M)
    told = {case: [int(least), int(last)] for cases, least, last in rows for case in numbers(cases)}
    hold("readings, USING", [told.get(case) for case in range(15)], wanted)


def refusals():
    numbered = dict(re.findall(r"(MC33_\w+) = (\d+)", within(header, "MC33_ANSWERED = 0,", "};")))
    texts = dict(re.findall(r'case (MC33_\w+): return "([^"]*)";', header))
    wanted = {int(number): texts.get(name) for name, number in numbered.items()}
    words = re.findall(r'=> \((\d+), "([^"]*)"\)', rust)
    hold("refusals, Rust", {int(number): text for number, text in words}, wanted)
    hold("refusals, Python", mc33.REFUSALS, wanted)
    listed = numbers("".join(re.findall(r"^\| \d+ ", within(using, "| number | when |", "\n\n"), re.M)))
    hold("refusals, USING", listed, sorted(wanted))
    # Document 02, 'Change 12': 9 is not given again.
    hold("refusals, no 9", [number for number in wanted if number == 9], [])


def trusts():
    wanted = {int(number): name.lower() for name, number in re.findall(r"MC33_(SURE|TURNED|UNKNOWN) = (\d+)", header)}
    named = re.findall(r"(\d+) => Trust::(\w+)", rust)
    hold("trusts, Rust", {int(number): name.lower() for number, name in named}, wanted)
    hold("trusts, Python", TRUSTS, wanted)
    table = re.findall(r"`MC33_(\w+)` \| `(\w+)` \| `'(\w+)'`", within(using, "| trust | what", "\n\n"))
    hold("trusts, USING", [{word.lower() for word in row} for row in table], [{wanted[n]} for n in sorted(wanted)])


def functions():
    declared = sorted(re.findall(r"^(?!static)\w.*\b(mc33_\w+)\(", header, re.M))
    hold("functions, Rust", sorted(re.findall(r"\bfn (mc33_\w+)\(", rust)), declared)
    hold("functions, Python", sorted(FUNCTIONS), declared)
    table = within(using, "| | Rattle | C and C++ |", "\n\n")
    inline = re.findall(r"^static inline .*\b(mc33_\w+)\(", header, re.M)
    hold("functions, USING", [name for name in declared + inline if f"`{name}`" in table], declared + inline)
    crate = re.findall(r"^pub fn (\w+)\(", (TOP / "rust/src/lib.rs").read_text(), re.M)
    hold("Rust's functions, USING", [name for name in crate if f"`{name}`" in table], crate)
    package = [name for name in mc33.__all__ if inspect.isfunction(getattr(mc33, name))]
    hold("Python's functions, USING", [name for name in package if f"`{name}`" in table], package)


tilings()
configurations()
readings()
refusals()
trusts()
functions()
sys.exit(wrong != 0)
