"""The calls that crates/library_calls makes, and their answers, from outside:

    oracle/choice.sh SOURCE choices < crates/mc33/stdin > CHOICES
    oracle/choice.sh SOURCE signs < crates/mc33/stdin > SIGNS
    python3 oracle/library_calls.py calls CHOICES SIGNS > crates/library_calls/stdin
    python3 oracle/library_calls.py answers CHOICES SIGNS > crates/library_calls/stdout

The version is the header's. Choices are document 01's own for its cubes to check by hand, with unsettled as document
02's Change 2 gives it, no pick without a match and Change 7's figures for the readings, and the Rust's for the cubes of
mc33's sample: CHOICES, held to crates/mc33/stdout, and by signs SIGNS, which takes the family from the source's CASES.
Families are worked out here from the rule of document 02's Change 1, and held to crates/set_families/stdout, which is
made from CASES. Lists, refusals, face tests, edge readings and roots are worked out here from document 01's text. Each
operation is made in binary64 and rounded to binary32, which for +, -, ×, / and the root of normal results is the same
as rounding once. Whether a face answer is the true join is worked out in fractions, from document 02's Change 6.
"""
import math
import pathlib
import re
import struct
import sys
from fractions import Fraction

CRATES = pathlib.Path(__file__).resolve().parent.parent / 'crates'
INF, NAN, STEP = math.inf, math.nan, 2.0 ** -23
ROW = 6  # document 02, Change 10: a cube's answer bytes

calls, answers = [], []
held = []  # the cubes of the next list: the seven numbers of a choice behind its refusal


def rounded(x):
    try:
        return struct.unpack('>f', struct.pack('>f', x))[0]
    except OverflowError:
        return math.copysign(INF, x)


def bits(x):
    return struct.pack('>f', x).hex()


def value(pattern):
    return struct.unpack('>f', bytes.fromhex(pattern))[0]


def quotient(x, y):
    if y == 0:
        return NAN if x == 0 or x != x else math.copysign(INF, x) * math.copysign(1, y)
    return rounded(x / y)


def times(x, y):
    return rounded(x * y)


def minus(x, y):
    return rounded(x - y)


# Corners by number, the others x.
def corners(named, x=-1.0):
    return [float(named.get(k, x)) for k in range(8)]


def line(case, configuration, cube):
    return f'{case} {configuration} ' + ' '.join(map(bits, cube))


def say(call, answer):
    calls.append(call)
    answers.append(answer)


# The program takes a line of 72 bytes or more for a call.
def note(text):
    assert len(text) < 70, text
    say('# ' + text, '# ' + text)


# ---- choices and lists
def choose(text, numbers):
    say('c ' + text, 'c ' + ' '.join(map(str, numbers)))
    held.append(numbers)


# Code, row, column, centre and unsettled, then readings; unmatched is 0.
def made(case, configuration, cube, *tiling):
    choose(line(case, configuration, cube), [0, *tiling[:5], 0, tiling[5]])


def refused(case, configuration, cube, why):
    choose(line(case, configuration, cube), [why, 0, 0, 0, 0, 0, 0, 0])


def release():
    calls.append('')
    held.clear()


# Document 01, 'List' and 'What is refused', with document 02's rows: 6, 7, then the cubes from the first; a refused
# list has every byte unchanged.
def outcome(even, cubes, room):
    if not even:
        return 6, 0, []
    if room < ROW * cubes:
        return 7, 0, []
    for place, choice in enumerate(held[:cubes]):
        if choice[0]:
            return choice[0], place, []
    rows = ([code, row, column, centre + 2 * unsettled, unmatched, readings]
            for _, code, row, column, centre, unsettled, unmatched, readings in held[:cubes])
    return 0, 0, sum(rows, [])


def say_list(call, answer, room):
    why, place, rows = answer
    left = rows + [200] * (room - len(rows))
    say(call, f'{call[0]} {why} {place}:' + ''.join(f' {byte}' for byte in left))


def choose_list(values, numbers, room):
    even = values % 8 == 0 and numbers % 2 == 0 and values // 8 == numbers // 2
    say_list(f'l {values:04} {numbers:04} {room:04}', outcome(even, values // 8, room), room)


# Each cube of the sample with its choice, and with that by signs.
def cubes_of_the_sample(choices, choices_by_signs):
    texts = (CRATES / 'mc33/stdin').read_text().split('\n')[1:]
    said = (CRATES / 'mc33/stdout').read_text().split('\n')
    printed = [answer for answer in said[1:] if answer[:1].isdigit()]
    files = [pathlib.Path(file).read_text().splitlines() for file in (choices, choices_by_signs)]
    if files[0] != printed or len(files[1]) != len(printed):
        sys.exit(f"{choices} or {choices_by_signs} has not the choices of mc33's sample")
    return [[(text, [int(number) for number in choice.split()]) for text, choice in zip(texts, file)] for file in files]


# Document 01's cubes to check by hand whose signs are those of their family, all but one: what `made` takes.
SUITED = [
    (3, 0, corners({0: 2, 2: 2}), 4, 0, 0, 0, 0, 1),
    (3, 0, corners({0: 1, 2: 1, 1: -2, 3: -2}), 3, 0, 0, 0, 0, 1),
    (3, 0, corners({0: 1, 2: 1}), 4, 0, 0, 0, 0, 1),
    (3, 12, corners({5: -1, 7: -1}, 1), 3, 12, 0, 0, 0, 1),
    (3, 0, corners({0: 1, 2: 1, 1: -(1 + STEP)}), 3, 0, 0, 0, 0, 1),
    (3, 0, corners({0: 1, 2: 1 - STEP / 2}), 4, 0, 0, 0, 0, 1),
    (4, 0, corners({0: 1, 6: 1}), 5, 0, 0, 0, 0, 3),
    (4, 0, corners({0: 9, 6: 9}), 6, 0, 0, 0, 0, 3),
    (4, 0, corners({0: 3, 6: 3}), 6, 0, 0, 0, 3, 3),
    (7, 0, corners({0: 1, 2: 1, 5: 1}), 15, 0, 0, 0, 0, 6),
    (10, 0, corners({0: 1, 1: 1, 6: 1, 7: 1}), 20, 5, 0, 0, 1, 3),
    (12, 0, corners({0: 1, 1: 1, 2: 1, 7: 1}), 26, 23, 0, 0, 2, 4),
    (13, 0, corners({0: 1, 2: 1, 5: 1, 7: 1}), 30, 0, 0, 0, 0, 6),
    (13, 0, corners({0: 1, 2: 1, 5: 1, 7: 1}, -2), 29, 0, 0, 0, 0, 6),
]


def hand_cubes():
    note("document 01's cubes to check by hand")
    for cube in SUITED[:9]:
        made(*cube)
    made(4, 0, corners({}, 1), 6, 0, 0, 0, 3, 3)
    for cube in SUITED[9:]:
        made(*cube)
    choose_list(120, 30, 90)
    release()


# `sampled` tells the first cube of the sample whose answer passes a test.
def kinds_of_row(sampled):
    note("a row of each kind: document 01's lines and mc33's sample")
    made(0, -1, corners({}, 1), 0, 0, 0, 0, 0, 0)
    made(13, 0, [1, 2, 1, 2, 1, 4, 1, 4], 255, 0, 5, 0, 0, 6)
    sampled(lambda code, row, column, centre, unsettled, *_: code == 255 and row == 1)
    made(3, 0, corners({0: 1, 2: 1}), 4, 0, 0, 0, 0, 1)
    sampled(lambda code, row, column, centre, unsettled, *_: code == 12 and column == 1 and row == 1)
    sampled(lambda code, row, column, centre, unsettled, *_: centre == 1 and column == 2)
    sampled(lambda code, row, column, centre, unsettled, *_: centre == 1 and column == 0 and row == 5)
    sampled(lambda code, row, column, centre, unsettled, *_: unsettled == 1 and row > 1)
    sampled(lambda code, row, column, centre, unsettled, *_: unsettled == 2 and row > 1)
    made(4, 0, corners({0: 3, 6: 3}), 6, 0, 0, 0, 3, 3)
    note('done, with a row more of room and with none')
    for sizes in (80, 20, 66), (80, 20, 60):
        choose_list(*sizes)
    note("6: a value less, a value more, a number less, a cube's less")
    for sizes in (79, 20, 60), (81, 20, 60), (80, 19, 60), (80, 18, 60), (72, 20, 60):
        choose_list(*sizes)
    note("6: document 01's 8 values and 4 numbers, and before 7")
    for sizes in (8, 4, 6), (8, 4, 5):
        choose_list(*sizes)
    note('7: 1 cube and 5 bytes, or 4; 10 cubes and a byte less, 40, none')
    for sizes in (8, 2, 5), (8, 2, 4), (80, 20, 59), (80, 20, 40), (80, 20, 0):
        choose_list(*sizes)
    note('no cubes')
    for sizes in (0, 0, 6), (0, 0, 0):
        choose_list(*sizes)
    release()


def picks_without_a_match(sampled):
    note('picks without a match: 1, 2 and 3, and no reading unsettled, or all')
    for number in 1, 2, 3:
        for unsettled in 0, number:
            sampled(lambda *choice: choice[4:6] == (unsettled, number))
    choose_list(48, 12, 36)
    release()


def readings_of_a_case(sampled):
    note('the least and the most readings of cases 6, 7, 10, 12 and 13')
    for codes, readings in (((10,), 1), ((8, 9), 2), ((11, 12, 13), 3), ((14, 15), 6), ((21, 22), 2), ((18, 19, 20), 3),
                            ((27, 28), 2), ((24, 25, 26), 4), (range(29, 36), 6), ((36,), 7), ((37,), 7)):
        sampled(lambda code, *choice: code in codes and choice[-1] == readings)
    choose_list(88, 22, 66)
    release()


def refusals_of_a_cube():
    good, spoilt = corners({0: 2, 2: 2}), corners({0: INF, 6: INF}, 1)
    note('1, 2 and 3, each at the first, at the last and before another')
    for bad in (15, 0, corners({}, 1), 1), (4, 8, corners({}, 1), 2), (4, 0, corners({7: INF}, 1), 3):
        refused(*bad)
        choose_list(8, 2, 6)
        release()
    made(3, 0, good, 4, 0, 0, 0, 0, 1)
    refused(4, 0, corners({0: -INF}, 1), 3)
    refused(15, 0, good, 1)
    for sizes in (8, 2, 6), (16, 4, 18), (24, 6, 18), (24, 6, 17):
        choose_list(*sizes)
    release()
    made(3, 0, good, 4, 0, 0, 0, 0, 1)
    made(0, -1, good, 0, 0, 0, 0, 0, 0)
    refused(-1, 0, good, 1)
    refused(4, -1, good, 2)
    for sizes in (24, 6, 18), (32, 8, 24):
        choose_list(*sizes)
    release()
    made(3, 0, good, 4, 0, 0, 0, 0, 1)
    refused(0, 0, good, 2)
    refused(13, 1, corners({3: NAN}, 1), 3)
    for sizes in (16, 4, 12), (24, 6, 18):
        choose_list(*sizes)
    release()
    note('the order of 1, 2 and 3 for one cube; case 0 with an infinity')
    for bad in (15, -2, spoilt, 1), (4, -1, spoilt, 2), (0, -1, spoilt, 3):
        refused(*bad)
        choose_list(8, 2, 6)
        release()


# ---- families and choices by signs: document 02, Change 1
OFFSETS = ((0, 0, 0), (1, 0, 0), (1, 1, 0), (0, 1, 0), (0, 0, 1), (1, 0, 1), (1, 1, 1), (0, 1, 1))
FIRSTS = (1, 3, 5, 65, 7, 21, 37, 15, 39, 85, 23, 30, 165, 29)


# The corners to which a rotation takes corners 0 to 7: what quarter turns about z and about x make.
def rotations():
    quarters = (lambda x, y, z: (1 - y, x, z)), (lambda x, y, z: (x, 1 - z, y))
    turns = [tuple(OFFSETS.index(turn(*place)) for place in OFFSETS) for turn in quarters]
    found, more = set(), {tuple(range(8))}
    while more:
        found |= more
        more = {tuple(turn[corner] for corner in rotation) for rotation in found for turn in turns} - found
    assert len(found) == 24
    return found


def corners_in(number):
    return [corner for corner in range(8) if number >> corner & 1]


def families():
    turned = rotations()
    found = {0: (0, -1), 255: (0, -1)}
    for case, first in enumerate(FIRSTS, 1):
        numbers = {sum(1 << rotation[corner] for corner in corners_in(first)) for rotation in turned}
        numbers |= {255 - number for number in numbers}
        row = sorted(numbers, key=lambda number: (len(corners_in(number)), corners_in(number)))
        found.update((number, (case, configuration)) for configuration, number in enumerate(row))
    lines = [f'{number} {found[number][0]} {found[number][1]}' for number in range(256)]
    if lines != (CRATES / 'set_families/stdout').read_text().splitlines():
        sys.exit('set_families/stdout has not the families by the rule')
    return found


FAMILIES = families()


def family(number):
    case, configuration = FAMILIES[number]
    say(f'k {number}', f'k {case} {configuration}')


# The first and the last row of each case, in the cases' order.
def families_of_each_case():
    note('families: sets 0 and 255, and the first and the last row of each case')
    family(0)
    family(255)
    for case in range(1, 15):
        rows = [number for number in FAMILIES if FAMILIES[number][0] == case]
        for end in min, max:
            family(end(rows, key=lambda number: FAMILIES[number][1]))


def choose_by_signs(text, numbers):
    say('s ' + text, 's ' + ' '.join(map(str, numbers)))
    held.append(numbers)


# As `made`, where the signs alone give that family; the line's case and configuration are not asked for.
def made_by_signs(case, configuration, cube, *tiling):
    assert FAMILIES[sum(1 << corner for corner in range(8) if cube[corner] > 0)] == (case, configuration), cube
    choose_by_signs(line(0, 0, cube), [0, *tiling[:5], 0, tiling[5]])


def refused_by_signs(cube):
    choose_by_signs(line(15, 99, cube), [3, 0, 0, 0, 0, 0, 0, 0])


def list_by_signs(values, room):
    say_list(f'm {values:04} {room:04}', outcome(values % 8 == 0, values // 8, room), room)


def lists_by_signs(text, *sizes):
    note(text)
    for values, room in sizes:
        list_by_signs(values, room)


def hand_cubes_by_signs():
    note("by signs: document 01's cubes to check by hand")
    for cube in SUITED:
        made_by_signs(*cube)
    note('all above 0: empty')
    made_by_signs(0, -1, corners({}, 1), 0, 0, 0, 0, 0, 0)
    note('zeros of both signs do not belong: sets 0, 0, 1, 5, 5 and 5')
    made_by_signs(0, -1, corners({0: 0.0}), 0, 0, 0, 0, 0, 0)
    made_by_signs(0, -1, [0.0, -0.0] * 4, 0, 0, 0, 0, 0, 0)
    made_by_signs(1, 0, corners({0: 1, 6: 0.0}), 1, 0, 0, 0, 0, 0)
    made_by_signs(3, 0, corners({0: 2, 2: 2, 4: 0.0}), 4, 0, 0, 0, 0, 1)
    made_by_signs(3, 0, corners({0: 1, 2: 1, 1: 0.0}), 4, 0, 0, 0, 0, 1)
    made_by_signs(3, 0, corners({0: 1, 2: 1, 1: -2, 3: -2, 6: -0.0}), 3, 0, 0, 0, 0, 1)
    list_by_signs(8 * len(held), ROW * len(held))
    release()
    note('by signs: 3 for each corner, for a NaN and both infinities')
    for corner in range(8):
        refused_by_signs(corners({corner: (NAN, INF, -INF)[corner % 3]}, 1))
        list_by_signs(8, 6)
        release()


# `sampled` tells the first cube of the sample whose answer by signs passes a test.
def rows_by_signs(sampled):
    note('by signs: a row of each kind')
    made_by_signs(0, -1, corners({}, 1), 0, 0, 0, 0, 0, 0)
    sampled(lambda code, row, *_: code == 255 and row == 1)
    sampled(lambda code, row, column, *_: code == 12 and column == 1 and row == 1)
    sampled(lambda code, row, column, centre, *_: centre == 1 and column == 2)
    for number in 1, 2, 3:
        sampled(lambda code, row, column, centre, unsettled, unmatched, *_: (unsettled, unmatched) == (number, 0))
        sampled(lambda code, row, column, centre, unsettled, unmatched, *_: unmatched == number)
    sampled(lambda code, *choice: choice[-1] == 7)
    values, room = 8 * len(held), ROW * len(held)
    lists_by_signs('done, with a row more of room and with none', (values, room + ROW), (values, room))
    lists_by_signs("6: a value less and more; a cube less is none; 6 before 7",
                   (values - 1, room), (values + 1, room), (values - 8, room), (12, 0))
    lists_by_signs('7: 1 cube and 5 bytes, or 4; all and a byte less, 4 a cube, none',
                   (8, 5), (8, 4), (values, room - 1), (values, room // ROW * 4), (values, 0))
    lists_by_signs('no cubes', (0, 6), (0, 0))
    release()


def refusals_by_signs():
    good = 3, 0, corners({0: 2, 2: 2}), 4, 0, 0, 0, 0, 1
    made_by_signs(*good)
    refused_by_signs(corners({3: NAN}, 1))
    made_by_signs(*good)
    refused_by_signs(corners({0: -INF}, 1))
    lists_by_signs('3 behind the list, at its end, within, before another; 7 and 6 first',
                   (8, 6), (16, 12), (24, 18), (32, 24), (16, 11), (15, 11))
    release()
    refused_by_signs(corners({7: INF}))
    made_by_signs(*good)
    list_by_signs(16, 12)
    release()


# ---- a face test, by its rule
FACES = {1: (0, 4, 5, 1), 2: (1, 5, 6, 2), 3: (2, 6, 7, 3), 4: (3, 7, 4, 0), 5: (0, 3, 2, 1), 6: (4, 7, 6, 5)}


def face_answer(n, cube):
    if abs(n) not in FACES:
        return 4, 0
    if not all(map(math.isfinite, cube)):
        return 3, 0
    a, b, c, d = (cube[k] for k in FACES[abs(n)])
    val = minus(times(a, c), times(b, d))
    return 0, int(n > 0 if abs(val) < STEP else times(times(float(n), a), val) >= 0)


def face(n, cube, expected=None):
    answer = face_answer(n, cube)
    assert expected in (None, answer), (n, cube, answer)
    say('f ' + line(n, 0, cube), 'f {} {}'.format(*answer))


def faces():
    note('faces: true, false, a tie, a NaN; 4, 4 before 3, 3')
    up, low, tie, big = (corners({0: x, 2: x, 1: y, 3: y}) for x, y in ((2, -1), (1, -2), (1, -1), (2.0 ** 64, -2.0 ** 64)))
    for n, cube, answer in (5, up, 1), (-5, up, 0), (5, low, 0), (-5, low, 1), (5, tie, 1), (-5, tie, 0), (5, big, 0):
        face(n, cube, (0, answer))
    face(-6, corners({5: -1, 7: -1}, 1), (0, 0))
    for n in 1, 2, 3, 4, 6:
        face(n, [2.0, -1.0, 3.0, -4.0, -1.0, 5.0, -2.0, 7.0])
    for n in 0, 7, -7:
        face(n, up, (4, 0))
    face(0, corners({0: NAN}), (4, 0))
    face(6, corners({1: INF}), (3, 0))


# ---- whether a face answer is the true join: document 02, Change 6, in exact fractions
LEAST, MOST = Fraction(value('358637bd')), 2 ** 63
SURE, TURNED, UNKNOWN = 1, 2, 3


def trust_answer(n, cube):
    why, answer = face_answer(n, cube)
    if why:
        return why, 0, 0
    a, b, c, d = (Fraction(cube[k]) for k in FACES[abs(n)])
    if not (a * c > 0 and b * d > 0 and a * b < 0 and all(LEAST <= abs(x) <= MOST for x in (a, b, c, d))):
        return 0, answer, UNKNOWN
    e, s = a * c - b * d, abs(a * c) + abs(b * d)
    right = e == 0 or answer == int(n * a * e >= 0)
    assert right or abs(e) * 2 ** 22 < max(1, s), 'Change 6'
    return 0, answer, SURE if right else TURNED


def trust(n, cube, *expected):
    answer = trust_answer(n, cube)
    assert expected in ((), answer[1:]), (n, cube, answer)
    say('t ' + line(n, 0, cube), 't {} {} {}'.format(*answer))


# A cube with a, b, c, d at face 5.
def square(a, b, c, d):
    return corners({0: a, 3: b, 2: c, 1: d})


# By face 5 and by -5, with the answers.
def trust_both(cube, *expected):
    for n, answer in zip((5, -5), expected):
        trust(n, cube, *answer)


def trusts():
    note('trust: sure, of either answer; E exactly 0; a tie, but right')
    trust_both(square(2, -1, 2, -1), (1, SURE), (0, SURE))
    for values in (-2, 1, -2, 1), (1, -2, 1, -2):
        trust_both(square(*values), (0, SURE), (1, SURE))
    for values in (1, -1, 1, -1), (2, -6, 3, -1):
        trust_both(square(*values), (1, SURE), (0, SURE))
    trust_both(square(1, STEP / 2 - 1, 1, -1), (1, SURE), (0, SURE))
    def ties(*texts):
        for text in texts:
            values = [value(pattern) for pattern in text.split()]
            trust_both(square(*values), (1, TURNED), (0, TURNED))
            trust(5, square(*(-x for x in values)), 1, SURE)
    note('turned, and sure with all signs turned: |E| at least 2^-22 of S')
    ties('ba000000 39800000 b9800000 39800000', 'bf0aaaaf 3f3b1287 beec4ec4 3eaf2982',
         'be2aaaae 3e18e34f bfc00000 3fd653af')
    note('the same with |E| at least 2^-22: S / |E| is 2^24 + 8 and + 4')
    ties('c5045000 42e20000 c5f7a800 4810fdc0', 'c0400000 44c1a000 caaaaaae 46293c00')
    note('val -2^-23 is no tie, -2^-24 is one')
    trust_both(square(1, -1 - STEP, 1, -1), (0, SURE), (1, SURE))
    trust_both(square(1, -1, 1 - STEP / 2, -1), (1, TURNED), (0, TURNED))
    note('|E| exactly 2^-22, and exactly 2^-22 of S')
    trust_both(square(-2.0 ** -10, 2.0 ** -10, -2.0 ** -11, 2.0 ** -12), (0, SURE), (1, SURE))
    trust_both(square(-2 ** 22 - 1, 2 ** 22 - 1, -1, 1), (0, SURE), (1, SURE))
    note('each face, turned or a tie that is right')
    for sign in 1, -1:
        low = sign * (1 - STEP / 2)
        cube = [low, -sign, sign, -sign, -sign, sign, -low, sign]
        for n in (*FACES, *(-n for n in FACES)):
            trust(n, cube)
    note('unknown: the signs do not alternate; zeros')
    for values in (2, 1, 2, 1), (2, -1, -2, -1), (2, -1, 2, 1), (-2, -1, -2, -1), (0.0, -1, 1, -1), (1, -1, 1, -0.0):
        trust(5, square(*values))
    note('the ends of the range, and for a, b, c and d the values past')
    ends = [value(pattern) for pattern in ('358637bd', '5f000000', '358637bc', '5f000001')]
    for end in ends[:2]:
        trust_both(square(end, -end, end, -end), (1, SURE), (0, SURE))
    for place in range(4):
        for end in ends:
            values = [1.0, -1.0, 1.0, -1.0]
            values[place] *= end
            trust(5, square(*values), int((end > 1) == (place % 2 == 0)), SURE if end in ends[:2] else UNKNOWN)
    note('out of the range the answer may be wrong and no tie')
    trust(5, square(*(value(pattern) for pattern in '00000001 ba800000 00000001 ba000000'.split())), 1, UNKNOWN)
    note('4, 4 before 3, 3 on the face and off it')
    for n in 0, 7, -7, 127, -128:
        trust(n, corners({0: 2, 2: 2}))
    trust(0, corners({0: NAN}))
    trust(-7, corners({6: INF}))
    for number, bad in (0, NAN), (3, -INF), (4, INF), (6, NAN):
        trust(-5, corners({0: 2, 2: 2, number: bad}))


# ---- an edge reading, by its rule: move k goes from the first corner to the second
MOVES = ['10 54 67 23', '23 10 54 67', '32 76 45 01', '01 32 76 45', '12 03 47 56', '03 12 56 47',
         '30 74 65 21', '21 30 74 65', '04 37 26 15', '15 04 37 26', '26 15 04 37', '37 26 15 04']


def reading(n, cube):
    if not 0 <= n < 12:
        return 5, 0, 0.0, 0.0
    if not all(map(math.isfinite, cube)):
        return 3, 0, 0.0, 0.0
    u = [cube[int(move[0])] for move in MOVES[n].split()]
    g = [minus(cube[int(move[1])], cube[int(move[0])]) for move in MOVES[n].split()]
    a = minus(times(g[0], g[2]), times(g[1], g[3]))
    b = minus(minus(rounded(times(u[2], g[0]) + times(u[0], g[2])), times(u[3], g[1])), times(u[1], g[3]))
    if a > 0:
        return 0, 1, 0.0, 0.0
    t = quotient(-b, times(2.0, a))
    if t < 0 or t > 1:
        return 0, 2, t, 0.0
    w = [rounded(u[k] + times(g[k], t)) for k in range(4)]
    product = minus(times(w[0], w[2]), times(w[1], w[3]))
    return (0, 4, 0.0, 0.0) if t != t or product != product else (0, 3, t, product)


# A value as the program prints it.
def code(x):
    shown = x + x + 100
    return int(shown) if 0 <= shown <= 254 and shown == int(shown) else 255


def edge(n, cube, *expected):
    answer = reading(n, cube)
    assert answer[:len(expected)] == expected, (n, cube, answer)
    say('e ' + line(n, 0, cube), 'e {} {} {} {}'.format(answer[0], answer[1], code(answer[2]), code(answer[3])))


def readings():
    def diagonal(x, y):
        return corners({0: y, 6: y}, x)
    note('readings: rising; beyond at -0.5 and 1.5; crossed at 0.5')
    edge(9, diagonal(-1, 3), 0, 1)
    edge(8, corners({0: 2, 4: 1, 2: 3, 6: 4}), 0, 2, -0.5)
    edge(8, corners({0: 4, 4: 3, 2: 1, 6: 2}), 0, 2, 1.5)
    edge(8, diagonal(-1, 1), 0, 3, 0.5, -1.0)
    edge(8, diagonal(-1, 9), 0, 3, 0.5, 15.0)
    edge(8, diagonal(-1, 3), 0, 3, 0.5, 0.0)
    note('blank by t, and by the product; 5, 5 before 3, 3')
    edge(8, diagonal(1, 1), 0, 4)
    edge(8, corners({4: 2.0 ** 64 - 2.0 ** 41, 6: 2.0 ** 64 + 2.0 ** 41}, 2.0 ** 64), 0, 4)
    edge(12, diagonal(-1, 3), 5)
    edge(-1, diagonal(1, INF), 5)
    edge(8, diagonal(1, INF), 3)


# ---- roots
def root(pattern, expected):
    x = value(pattern)
    answer = '7fc00000' if x != x or x < 0 else bits(math.copysign(rounded(math.sqrt(x)), x))
    assert answer == expected, (pattern, answer)
    say(f'r 0 0 {pattern} ' + ' '.join([bits(1.0)] * 7), f'r {code(value(answer))} {answer}')


def roots():
    note('roots: whole, of 6.25, of 2, of zeros, infinity, below zero, NaN')
    for x, expected in (4, '40000000'), (81, '41100000'), (6.25, '40200000'), (2, '3fb504f3'), (INF, '7f800000'):
        root(bits(x), expected)
    for pattern in '00000000', '80000000':
        root(pattern, pattern)
    for pattern in bits(-1.0), '80000001', '7fc00000', 'ff800001':
        root(pattern, '7fc00000')
    root('00000001', '1a3504f3')
    root('7f7fffff', '5f7fffff')


def version():
    """The header's, as `v` and 1000 × major + minor; the program prints it before it reads a call."""
    header = (CRATES.parent / 'include/mc33.h').read_text()
    major, minor = (re.search(rf'#define MC33_VERSION_{part} (\d+)', header)[1] for part in ('MAJOR', 'MINOR'))
    answers.append(f'v {1000 * int(major) + int(minor)}')


def first(sample, test):
    return next((text, [0, *answer]) for text, answer in sample if test(*answer))


def main():
    if len(sys.argv) != 4 or sys.argv[1] not in ('calls', 'answers'):
        sys.exit('calls CHOICES SIGNS | answers CHOICES SIGNS')
    version()
    sample, by_signs = cubes_of_the_sample(*sys.argv[2:])
    def sampled(test):
        choose(*first(sample, test))

    hand_cubes()
    kinds_of_row(sampled)
    picks_without_a_match(sampled)
    readings_of_a_case(sampled)
    refusals_of_a_cube()
    faces()
    trusts()
    readings()
    roots()
    release()
    note("more than 255 cubes: the first 299 of mc33's sample")
    for text, answer in sample[:299]:
        choose(text, [0, *answer])
    choose_list(2392, 598, 1800)
    note('and another behind them that is refused')
    refused(4, 8, corners({0: 2, 2: 2}), 2)
    choose_list(2400, 600, 1800)
    release()
    families_of_each_case()
    hand_cubes_by_signs()
    rows_by_signs(lambda test: choose_by_signs(*first(by_signs, test)))
    refusals_by_signs()
    note("by signs: more than 255 cubes, the first 299 of mc33's sample")
    for text, answer in by_signs[:299]:
        choose_by_signs(text, [0, *answer])
    list_by_signs(2392, 1800)
    print('\n'.join(calls if sys.argv[1] == 'calls' else answers))


main()
