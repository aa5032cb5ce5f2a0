#!/usr/bin/env python3
"""Runs the text program on the tests of crates/mc33_inputs/stdin, or on an input of many blocks.

usage: text.py BINARY [FILE]
       text.py BINARY --blocks [FOLDER]

FILE, if not crates/mc33_inputs/stdin, has a test a line: input, ` => `, output, with the escapes that its head names;
lines that begin with `#` and empty lines are none. BINARY gets each input through a pipe at once, through
a pipe a byte at a time, and from a file. It must write the output and nothing on standard error, and end
with status 0. Then a read and a write are made to fail, which must give a message on standard error.
Prints what differs, and how many inputs and runs there were and how many of the runs differ; ends with
status 1 if any does.

With --blocks the input is made of the cubes of FOLDER's stdin, crates/mc33 if there is none, and the output
of their answers in its stdout: all of them again and again, until the input fills 300 of the program's
blocks. BINARY gets it through a pipe and from a file.
"""
import array
import fcntl
import os
import subprocess
import sys
import tempfile
import termios
import time

CRATES = os.path.join(os.path.dirname(os.path.abspath(__file__)), "..", "crates")
TESTS = os.path.join(CRATES, "mc33_inputs", "stdin")
BLOCK = 65536
BLOCKS = 300
SECONDS = 60
CORNERS = b" 3f800000 bf800000 3f800000 bf800000 bf800000 bf800000 bf800000 bf800000"
ESCAPES = {
    ord("n"): b"\n",
    ord("r"): b"\r",
    ord("t"): b"\t",
    ord("0"): b"\0",
    ord("\\"): b"\\",
    ord("N"): b"case config c0 c1 c2 c3 c4 c5 c6 c7\n",
    ord("A"): b"code row column centre unsettled unmatched readings\n",
    ord("C"): CORNERS,
    ord("L"): b"1" * 100000,
}


def decode(half):
    """The bytes of a half of a test, or None where an escape is none of ours."""
    text, at = bytearray(), 0
    while at < len(half):
        if half[at] != ord("\\"):
            text.append(half[at])
            at += 1
        elif half[at + 1 : at + 2] == b"x":
            digits = half[at + 2 : at + 4]
            if len(digits) < 2 or digits.strip(b"0123456789abcdef"):
                return None
            text.append(int(digits, 16))
            at += 4
        elif at + 1 < len(half) and half[at + 1] in ESCAPES:
            text += ESCAPES[half[at + 1]]
            at += 2
        else:
            return None
    return bytes(text)


def tests(path):
    """Number of line, input and output of each test; None for both where the line is none."""
    with open(path, "rb") as file:
        lines = file.read().split(b"\n")
    for number, line in enumerate(lines, 1):
        if line and not line.startswith(b"#"):
            left, arrow, right = line.partition(b" => ")
            halves = decode(left), decode(right)
            yield (number, *(halves if arrow and None not in halves else (None, None)))


def at_once(binary, given):
    return subprocess.run([binary], input=given, capture_output=True, timeout=SECONDS)


def taken(pipe, child):
    """Waits until the child has read what is in the pipe, or has ended."""
    count, end = array.array("i", [1]), time.monotonic() + SECONDS
    while count[0] and child.poll() is None and time.monotonic() < end:
        fcntl.ioctl(pipe, termios.FIONREAD, count)


def by_bytes(binary, given):
    """A byte at a time, each read before the next is written; of a long input 200 so, then the rest."""
    child = subprocess.Popen([binary], stdin=subprocess.PIPE, stdout=subprocess.PIPE, stderr=subprocess.PIPE)
    pipe, single = child.stdin.fileno(), len(given) if len(given) < 2000 else 200
    rest = given[single:]
    try:
        for at in range(single):
            os.write(pipe, given[at : at + 1])
            taken(pipe, child)
    except BrokenPipeError:
        rest = b""
    out, err = child.communicate(rest, SECONDS)
    return subprocess.CompletedProcess(child.args, child.returncode, out, err)


def from_file(binary, given):
    with tempfile.TemporaryFile() as file:
        file.write(given)
        file.seek(0)
        return subprocess.run([binary], stdin=file, capture_output=True, timeout=SECONDS)


def short(text):
    return repr(text) if len(text) < 400 else f"{len(text)} bytes"


def said(child):
    return f"status {child.returncode}, {short(child.stdout)}, {short(child.stderr)}"


def words_for(expected):
    """What is said on standard error: at which line the input was refused, where it was."""
    last = expected.splitlines()[-1:] or [b""]
    return b"mc33: refused at line " + last[0].split()[2] + b"\n" if last[0].startswith(b"refused") else b""


def run_test(binary, number, given, expected):
    """How many runs were made, and how many differ."""
    if given is None:
        print(f"line {number}: not a test")
        return 1, 1
    differ = 0
    for run in (at_once, by_bytes, from_file):
        child = run(binary, given)
        if (child.returncode, child.stdout, child.stderr) != (0, expected, words_for(expected)):
            differ += 1
            print(f"line {number}, {run.__name__}: {said(child)}; expected {short(expected)}")
    return 3, differ


# What is to fail, the shell's redirections for it, and the input.
FAILURES = (
    ("standard input closed", "<&-", None),
    ("a directory as input", "< /", None),
    ("a full device for the names", "> /dev/full", ESCAPES[ord("N")]),
    ("a full device for an answer", "> /dev/full", ESCAPES[ord("N")] + b"3 0" + CORNERS + b"\n"),
    ("a full device for a refusal", "> /dev/full", b""),
)


def fails_well(binary, name, redirections, given):
    """Whether there is a message on standard error, nothing on standard output, and no end by a signal."""
    words = ["sh", "-c", f'exec "$0" {redirections}', binary]
    child = subprocess.run(words, input=given, capture_output=True, timeout=SECONDS)
    good = child.returncode >= 0 and not child.stdout and child.stderr.endswith(b"\n")
    if not good:
        print(f"{name}: {said(child)}")
    return good


def whole_lines(path):
    """The lines that end, each with its newline."""
    with open(path, "rb") as file:
        return [line + b"\n" for line in file.read().split(b"\n")[:-1]]


def answered(folder):
    """The names lines, and the cubes and answers in order, up to the first line that is refused."""
    given, said = (whole_lines(os.path.join(folder, name)) for name in ("stdin", "stdout"))
    pairs = [pair for pair in zip(given, said) if not pair[1].startswith(b"refused")]
    return pairs[0], pairs[1:]


def first_difference(one, other):
    """The line in which two outputs differ, counted from 1."""
    at = next((i for i, (a, b) in enumerate(zip(one, other)) if a != b), min(len(one), len(other)))
    return one.count(b"\n", 0, at) + 1


def run_blocks(binary, folder):
    """Whether an input of many blocks gives what it should, both ways."""
    names, cubes = answered(folder)
    times = -(-BLOCKS * BLOCK // sum(len(cube) for cube, _ in cubes))
    given, expected = (names[k] + b"".join(pair[k] for pair in cubes) * times for k in (0, 1))
    differ = 0
    for run in (at_once, from_file):
        child = run(binary, given)
        if (child.returncode, child.stdout, child.stderr) != (0, expected, b""):
            differ += 1
            print(f"{run.__name__}: {said(child)}; differs in line {first_difference(child.stdout, expected)}")
    lines = expected.count(b"\n")
    print(f"{lines} lines, {len(given)} bytes in, {len(expected)} bytes out, 2 runs, {differ} differ")
    return differ == 0


def main(words):
    if len(words) not in (1, 2, 3) or len(words) == 3 and words[1] != "--blocks":
        sys.exit(__doc__)
    binary = os.path.abspath(words[0])
    if words[1:2] == ["--blocks"]:
        return 0 if run_blocks(binary, words[2] if len(words) == 3 else os.path.join(CRATES, "mc33")) else 1
    inputs = runs = differ = 0
    for test in tests(words[1] if len(words) == 2 else TESTS):
        more, wrong = run_test(binary, *test)
        inputs, runs, differ = inputs + 1, runs + more, differ + wrong
    for failure in FAILURES:
        runs += 1
        differ += not fails_well(binary, *failure)
    print(f"{inputs} inputs, {runs} runs, {differ} differ")
    return 1 if differ else 0


if __name__ == "__main__":
    sys.exit(main(sys.argv[1:]))
