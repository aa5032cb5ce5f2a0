"""How sharp the two constants of document 02's Change 6 are, in exact fractions:

    python3 oracle/sharp.py

First faces whose answer is a tie and wrong, each with what it shows; then the worst that there are, by trying every
first factor. a, b, c, d are the corners of face 5, P = a×c, Q = b×d, E = P - Q, S = |P| + |Q|, and p, q, val are P, Q
and p - q rounded to binary32.

Only a tie can be wrong, as rounding keeps order, and then |p - q| is below 2^-23. Say P is above Q.

The first constant. Where p and q have the same step u from one f32 to the next, rounding moves each by u/2 at most,
and |E| is at most (2^-23 - u) + u. So for more than 2^-23 a power of two B stands between P and Q, with the step u
above it, which is B × 2^-23, and u/2 below: |E| is at most (2^-23 - u/2) + u/2 + u/4 = 2^-23 × (1 + B/4), and S is
about 2 × B. (With Q below B/2 too, B is at most 2^-22, and rounding moves next to nothing.) |E| at least 2^-22 × S
leaves B up to 1/4, and |E| is below 17/16 × 2^-23; 2^-23 × S leaves B up to 1/2, and 2^-24 × S up to 1.

The second constant, with |E| at least 2^-22. Rounding moves the two by more than 2^-23 together, so p is 2 at least,
and p = q. Let them be 2^k × (1 + m × 2^-23), with the step u: |E| is u at most, and S / |E| is at least 2^24 + 2 × m,
for m = 0 at least 4/3 × 2^24, since below 2^k the step is u/2. For odd m the middles between f32 round away from p, so
S / |E| is more.
"""
import struct
from fractions import Fraction

UNIT = Fraction(1, 2 ** 23)


def value(pattern):
    return Fraction(struct.unpack('>f', bytes.fromhex(pattern))[0])


def bits(x):
    pattern = struct.pack('>f', x).hex()
    assert value(pattern) == x
    return pattern


# To the nearest binary32 value, ties to even; not for subnormals.
def rounded(x):
    if x < 0:
        return -rounded(-x)
    step = Fraction(2) ** -149
    while x >= step * 2 ** 24:
        step *= 2
    return round(x / step) * step


def show(text, shows):
    a, b, c, d = map(value, text.split())
    p, q = rounded(a * c), rounded(b * d)
    e, s, val = a * c - b * d, abs(a * c) + abs(b * d), rounded(p - q)
    assert abs(val) < UNIT, f'{text} is no tie'
    assert 5 * a * e < 0, f'{text} is answered rightly, by true'
    print(f'{text}: {shows}')
    print(f'    |E| = {float(abs(e) / UNIT):.8f} × 2^-23, S / |E| = {float(s / abs(e)):.2f}, p = {p}, q = {q}, '
          f'val = {float(val / UNIT)} × 2^-23')


# The product of two significands of 24 digits nearest to n, which is about 2^47, from above (side 1) or below (-1): how
# far it is away, and the two. Not n itself where it rounds to the other neighbour. About 2^46 and 2^48, which are the
# same values over another power of two, the products next to a power of two stand too far apart.
def nearest(n, side, itself):
    best = None
    for x in range(2 ** 23, 2 ** 24):
        away = -side * n % x or (0 if itself else x)
        if (best is None or away < best[0]) and 2 ** 23 <= (n + side * away) // x <= 2 ** 24:
            best = away, x, (n + side * away) // x
            if away == (0 if itself else 1):
                break
    return best


# With B between P and Q, in quarters of u: P rounds to B + 4 × k, Q to B - 2 × j, and the two are a tie.
def worst_about(power):
    quarter, worst = 2 ** 22, (0,)
    for k in range(int(1 / power) + 1):
        j = int(2 / power) - 1 - 2 * k
        if j >= 0:
            _, a, c = nearest(2 ** 47 + (4 * k + 2) * quarter, -1, k % 2 == 0)
            _, b, d = nearest(2 ** 47 - (2 * j + 1) * quarter, 1, j % 2 == 0)
            values = [-a * power / 2 ** 24, b * power / 2 ** 24, -Fraction(c, 2 ** 23), Fraction(d, 2 ** 23)]
            worst = max(worst, (a * c - b * d, ' '.join(bits(Fraction(x)) for x in values)))
    return worst[1]


for text, shows in (('ba000000 39800000 b9800000 39800000', '2^-24 is false'),
                    ('bf0aaaaf 3f3b1287 beec4ec4 3eaf2982', '2^-23 is false'),
                    ('c5045000 42e20000 c5f7a800 4810fdc0', '2^-25 × S is false')):
    show(text, shows)
for name, power in ('2^-22', Fraction(1, 4)), ('2^-23', Fraction(1, 2)), ('2^-24', Fraction(1)):
    show(worst_about(power), f'the largest |E| with {name} × S')
(below, *_), (above, *_) = nearest(2 ** 47 + 3 * 2 ** 23, -1, False), nearest(2 ** 47 + 2 ** 23, 1, False)
first, second = 2 ** 47 + 3 * 2 ** 23 - below, 2 ** 47 + 2 ** 23 + above
print(f'm = 1: S / |E| is at least {float(Fraction(first + second, first - second)):.2f}')
show(' '.join(map(bits, (-3, 1549, -5592407, 10831))), 'm = 2, the largest |E| / S with 2^-22')
