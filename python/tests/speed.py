"""What a list costs on a million cubes beside a bare call of the library: python3 -m tests.speed, by hand.

Each round times the kinds of call one after the other; the ratio is that of the fastest rounds. numpy's arrays are
timed where numpy is there. Status 1 where a ratio is above LIMIT.
"""
import sys
from array import array
from time import perf_counter

import mc33
from mc33.library import loaded

CUBES = 1_000_000
ROUNDS = 15
LIMIT = 1.1
CUBE = [3, -1, -1, -1, -1, -1, 3, -1]
CORNERS = array("f", CUBE) * CUBES


def calls(routine, bare, *given):
    """The kinds of call of a list routine, and first the bare call of the library's function."""
    answers = array("B", bytes(mc33.ROW * CUBES))
    kept = (*given, answers)
    lent = [part for values in kept for part in values.buffer_info()]
    yield "a bare call", lambda kept=kept: bare(*lent)
    yield "array", lambda: routine(*kept)
    yield "array, new answers", lambda: routine(*given)
    try:
        import numpy
    except ImportError:
        return
    arrays = [numpy.frombuffer(values, values.typecode).reshape(CUBES, -1) for values in kept]
    yield "numpy", lambda: routine(*arrays)
    yield "numpy, new answers", lambda: routine(*arrays[:-1])


def timed(call):
    start = perf_counter()
    call()
    return perf_counter() - start


def greatest_ratio(what, *routine_and_lent):
    """Prints the times of a routine's kinds of call."""
    named = dict(calls(*routine_and_lent))
    rounds = [[timed(call) for call in named.values()] for _ in range(ROUNDS)]
    fastest = [min(times) for times in zip(*rounds)]
    ratios = [time / fastest[0] for time in fastest]
    for name, time, ratio in zip(named, fastest, ratios):
        print(f"{what}, {name}: {1000 * time:.2f} ms for {CUBES} cubes, {ratio:.3f} times a bare call")
    return max(ratios)


def main():
    # Case 1 is chosen without a look at the corners, so nothing is faster; case 4 reads three edges.
    given = [array("b", [case, 0]) * CUBES for case in (1, 4)]
    ratios = [greatest_ratio(f"case {numbers[0]}", mc33.choose_list, loaded().mc33_list, CORNERS, numbers)
              for numbers in given]
    ratios.append(greatest_ratio("by the signs", mc33.choose_list_signs, loaded().mc33_list_signs, CORNERS))
    return max(ratios) > LIMIT


if __name__ == "__main__":
    sys.exit(main())
