"""The proved chooser from Python: each routine once, then lists and refused lists. Prints what examples/choose.c
prints."""
import mc33

TIED = [1, -1, 1, -1, -1, -1, -1, -1]
APART = [1, -2, 1, -2, -1, -1, -1, -1]
THIN = [1e-4, -2e-4, 1e-4, -2e-4, -1, -1, -1, -1]
LEVEL = [3, -1, -1, -1, -1, -1, 3, -1]
STEEP = [9, -1, -1, -1, -1, -1, 9, -1]
FLAT = [1] * 8
UNPAIRED = [-1, -1, 1, -1, -1, 1, -1, -1]
ZEROS = [1, 0.0, 1, -0.0, 0.0, -0.0, 0.0, -0.0]
BROKEN = [float("inf")] * 8
CUBES = [TIED, LEVEL, [1, 2, 1, 2, 1, 4, 1, 4]]
NUMBERS = [3, 0, 4, 0, 13, 0]


def said(routine, *arguments):
    """What the routine's answer reads as, or its refusal."""
    try:
        return routine(*arguments)
    except mc33.Refused as refused:
        return f"refused {refused.number}"


def fields(routine, *arguments):
    """The answer's fields by name, or the refusal."""
    answer = said(routine, *arguments)
    return answer if isinstance(answer, str) else " ".join(f"{k} {v}" for k, v in answer._asdict().items())


def face(corners, number):
    return "true" if mc33.test_face(corners, number) else "false"


def trust(corners, number):
    answer, trusted = mc33.trust_face(corners, number)
    return f"{'true' if answer else 'false'}, {trusted}"


def edge(corners, number):
    kind, *values = mc33.read_edge(corners, number)
    named = zip(("t", "product"), values)
    return ", ".join([kind, *(f"{name} {value:g}" for name, value in named if value is not None)])


def print_list(routine, *lent):
    """The outcome of a list and its rows; each answer byte is 7 beforehand."""
    answers = bytearray([7] * (len(lent[0]) // 8 * mc33.ROW))
    try:
        routine(*lent, answers)
        print("done")
    except mc33.Refused as refused:
        print(f"refused {refused.number} at {refused.place}")
    for place in range(0, len(answers), mc33.ROW):
        print(*answers[place:place + mc33.ROW])


def print_lists(corners, numbers):
    """The cubes with their numbers, then by their signs."""
    print_list(mc33.choose_list, corners, numbers)
    print_list(mc33.choose_list_signs, corners)


for case, configuration, corners in (
        (3, 0, TIED), (3, 0, APART), (4, 0, LEVEL), (4, 0, FLAT), (4, 0, UNPAIRED), (4, 8, LEVEL)):
    print(f"case {case}/{configuration}: {fields(mc33.choose, case, configuration, corners)}")
for number in 5, 250, 255:
    print(f"set {number}: {fields(mc33.family_of, number)}")
for corners in TIED, ZEROS, BROKEN:
    print(f"by the signs: {fields(mc33.choose_signs, corners)}")
for number in 5, -5, 0:
    print(f"face {number}: {said(face, TIED, number)}")
for corners, number in (APART, 5), (THIN, 5), (THIN, -5), (FLAT, 5), (TIED, 0):
    print(f"trust {number}: {said(trust, corners, number)}")
for corners, number in (LEVEL, 0), (STEEP, 8), (TIED, 0), (FLAT, 0), (TIED, 12):
    print(f"edge {number}: {said(edge, corners, number)}")
print(f"root of 6.25: {mc33.root(6.25):g}")
print(f"root of ff800000: {mc33.root_bits(0xff800000):08x}")

print_lists(sum(CUBES, []), NUMBERS)
print_lists(TIED + LEVEL[:7] + [float("inf")] + CUBES[2], NUMBERS)
print_lists([], [])
