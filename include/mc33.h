/* The C interface of Pizkurma, a proved chooser for Marching Cubes 33.
 *
 *            7 --------- 6        z  y       corner  0 1 2 3 4 5 6 7
 *           /|          /|        | /             x  0 1 1 0 0 1 1 0
 *          4 --------- 5 |        |/              y  0 0 1 1 0 0 1 1
 *          | |         | |        +--- x          z  0 0 0 0 1 1 1 1
 *          | 3 --------|-2
 *          |/          |/       face 1 is y = 0, 2 is x = 1, 3 is y = 1,
 *          0 --------- 1             4 is x = 0, 5 is z = 0, 6 is z = 1
 *
 * The sign rule: a corner belongs to a cube's set if its value is above 0, whichever side of 0 is inside, and bit n of
 * the set's number is corner n. A zero of either sign does not belong. mc33_family_of has the case and configuration
 * of a set; mc33_choose_signs and mc33_list_signs find them by themselves. docs/USING.md goes from a grid of distances
 * to a mesh.
 *
 * Codes of a choice, with the names of their tables (mc33_tiling_name):
 *
 *     1 1      7 5       13 7_3     19 10_1_1_  25 12_1_1_  31 13_2    37 13_5_2
 *     2 2      8 6_1_1   14 7_4_1   20 10_1_2   26 12_1_2   32 13_2_   38 14
 *     3 3_1    9 6_1_2   15 7_4_2   21 10_2     27 12_2     33 13_3
 *     4 3_2   10 6_2     16 8       22 10_2_    28 12_2_    34 13_3_    0 empty
 *     5 4_1   11 7_1     17 9       23 11       29 13_1     35 13_4   255 no tiling
 *     6 4_2   12 7_2     18 10_1_1  24 12_1_1   30 13_1_    36 13_5_1
 *
 * Link with libmc33_c.a, or with libmc33.so (x86-64 Linux). Nothing here allocates, keeps anything between calls or
 * touches memory other than what it is lent, so any number of threads may call at once.
 *
 * Every function takes any numbers of its types; C cuts a larger int to 8 bits without a word. What a function cannot
 * answer it refuses, with one of the numbers below: `refusal` is 0 where there is an answer, and where there is none
 * the other fields are 0, but for the place in a list. So look at `refusal` first. */
#ifndef MC33_H
#define MC33_H

#include <stddef.h>
#include <stdint.h>

#ifdef __cplusplus
extern "C" {
#endif

/* The version of this header. The major number moves where a caller that was built before would read something
 * wrongly (the bytes of a row, the layout of a record, the meaning of a code) or would no longer build, since a name is
 * gone; the shared object's name has it, as libmc33.so.5. The minor number moves where something is added: a function,
 * a refusal's number, so keep a `default` in a switch over refusals, or what is counted: from 2.1 on `unsettled` counts
 * blank readings too. From 3.0 on a choice has `unmatched`, from 4.0 on `readings`, from 5.0 on a row has both, from
 * 5.1 on there are mc33_family_of, mc33_choose_signs and mc33_list_signs, and from 5.2 on mc33_trust_face. */
#define MC33_VERSION_MAJOR 5
#define MC33_VERSION_MINOR 2
#define MC33_VERSION (1000 * MC33_VERSION_MAJOR + MC33_VERSION_MINOR)

/* MC33_VERSION of the library that is linked. With another major number than this header's nothing else here holds. */
uint32_t mc33_version(void);

/* Refusals. Order: a choice 1, 2, 3, and by the signs 3 alone; a face test 4, 3, and so with its trust; an edge reading
 * 5, 3; a list 6, 7, then its cubes from the first, each as a choice. 8 is the text program's, and there is no 9.
 * mc33_refusal_text has the words. */
enum {
    MC33_ANSWERED = 0,
    MC33_NO_CASE = 1,          /* the case is below 0 or above 14 */
    MC33_NO_CONFIGURATION = 2, /* the configuration is not one of the case's */
    MC33_NOT_FINITE = 3,       /* a corner is a NaN or infinite */
    MC33_NO_FACE = 4,          /* the face number is not -6..-1 or 1..6 */
    MC33_NO_EDGE = 5,          /* the edge number is not 0..11 */
    MC33_UNEVEN_LISTS = 6,     /* a list without 8 corner values (and 2 numbers) a cube */
    MC33_NO_ROOM = 7,          /* a list with fewer than MC33_ROW_BYTES answer bytes a cube */
    MC33_MALFORMED = 8         /* the text program: a line that is malformed */
};

/* Codes of a choice that is no tiling; tilings have 1 to MC33_TILINGS. */
enum {
    MC33_EMPTY = 0,
    MC33_TILINGS = 38,
    MC33_NO_TILING = 255
};

/* The values at corners 0 to 7. */
typedef struct {
    float c[8];
} mc33_cube;

/* A case (0 to 14) with one of its configurations; case 0 has -1 alone. */
typedef struct {
    int8_t case_number, configuration;
} mc33_family;

/* A choice: code, row and column of the tiling, 1 where it is drawn with the centre, and how many of its edge readings
 * were unsettled (0 to 3), that is crossed with a product equal to zero, or blank: so many times the inside hung on a
 * tie or on no number. All corners 1 in case 4: three blank readings, unsettled 3. MC33_EMPTY has zeros;
 * MC33_NO_TILING has the configuration as row and the sub-configuration as column.
 *
 * The edge that is read is picked by the cube's diagonals, the corners 0 6, 1 7, 2 4 and 3 5. `unmatched` is how many
 * picks found none with both ends on the side that they look for (0 to 3): edge 0 was then not picked but left over.
 * The diagonals are the same for every pick, so it is 0 or all of them: 3 in cases 4 and 7, 2 in case 12, 1 in cases 6
 * and 10. Corners 2 and 5 at 1, the others at -1, in case 4: unmatched 3.
 *
 * `readings` is how many face tests and edge readings were made for the choice, and one more where the case-13 test
 * was: 1 in case 3, 3 in case 4, 1 or 2 in case 6, 3 or 6 in case 7, 2 or 3 in case 10, 2 or 4 in case 12, 6 or 7 in
 * case 13, 6 where it has no tiling, and 0 in the other cases. mc33_most_readings has the most. */
typedef struct {
    uint8_t refusal, code, row, column, centre, unsettled, unmatched, readings;
} mc33_choice;

/* A face answer: 1 for true. */
typedef struct {
    uint8_t refusal, answer;
} mc33_face_answer;

/* Whether a face answer is the true join, that of the values as exact numbers. */
enum {
    MC33_SURE = 1,   /* it is, or the exact numbers are a tie too */
    MC33_TURNED = 2, /* the exact numbers join the other two corners */
    MC33_UNKNOWN = 3 /* the four values do not alternate, or one's magnitude is not from 1e-6f to 2^63 */
};

/* A face answer, 1 for true, with its trust. */
typedef struct {
    uint8_t refusal, answer, trust;
} mc33_face_trust;

/* What is read at an edge. */
enum {
    MC33_RISING = 1,
    MC33_BEYOND = 2,  /* has t */
    MC33_CROSSED = 3, /* has t and product */
    MC33_BLANK = 4    /* t or the product was a NaN, as on all edges of a cube of ones */
};

/* An edge reading: t and the product are 0 where the reading has none. */
typedef struct {
    uint8_t refusal, kind;
    float t, product;
} mc33_edge_reading;

/* A list's outcome. `place` is that of the refused cube, counted from 0, and 0 for refusals 6 and 7. */
typedef struct {
    uint64_t refusal, place;
} mc33_outcome;

/* Chooses the tiling for a case (0 to 14), one of its configurations (-1 alone for case 0) and a cube. */
mc33_choice mc33_choose(int8_t case_number, int8_t configuration, mc33_cube cube);

/* The family of a set of corners, whose bit n is corner n. Any number has one: 0 and 255 have case 0, and each other
 * set is the only one of its case and configuration. 5, corners 0 and 2, is case 3, configuration 0. The table is
 * proved to be what its rule says (docs/PROOFS.md). */
mc33_family mc33_family_of(uint8_t set);

/* Chooses the tiling for a cube by its signs: as mc33_choose for the family of the set of its corners above 0. A zero
 * of either sign does not belong to the set. MC33_NOT_FINITE is its only refusal. Where no corner is a zero `unmatched`
 * is 0. */
mc33_choice mc33_choose_signs(mc33_cube cube);

/* Tests a face: -6..-1 or 1..6. */
mc33_face_answer mc33_face(mc33_cube cube, int8_t face);

/* Tests a face as mc33_face does, and tells whether the answer is the true join. Let a, b, c, d be the values round the
 * face and E = a*c - b*d, exact and not rounded: the true answer is 1 where face * a * E is above 0, and 0 where it is
 * below. The face test rounds; below 2^-23 it has a tie, which goes by the face number's sign. So at ties, and nowhere
 * else, an answer may be turned. Corners 0 to 3 in face 5, with each magnitude from 1e-6f to 2^63 in the first three:
 *
 *     1 -2 1 -2                        0, MC33_SURE: E is -3
 *     1 -1 1 -1                        1, MC33_SURE: E is 0
 *     1e-4f -2e-4f 1e-4f -2e-4f        1, MC33_TURNED: E is -3e-8
 *     1 1 1 1                          1, MC33_UNKNOWN: they do not alternate
 *
 * Proved, of values that alternate in this range: it is sure where |E| is at least 2^-22 and at least 2^-22 times
 * |a*c| + |b*d|, and where the answer is no tie. A choice goes by the answer, turned or not, and so do both cubes that
 * meet at the face: there is no slot. */
mc33_face_trust mc33_trust_face(mc33_cube cube, int8_t face);

/* Reads an edge: 0..11. These numbers are not those of the tilings' edges. */
mc33_edge_reading mc33_edge(mc33_cube cube, int8_t edge);

/* The f32 square root, the nearest value: a NaN for a NaN and below zero, each zero and +infinity for itself. */
float mc33_root(float x);

/* The same on bit patterns. The root of a NaN and of a value below zero is always 7fc00000. */
uint32_t mc33_root_bits(uint32_t bits);

/* A cube's answer bytes in a list, its row: code, row, column, centre + 2 * unsettled, unmatched, readings. MC33_EMPTY
 * is six zeros; MC33_NO_TILING is followed by the configuration, the sub-configuration, 0, 0 and 6. Before 5.0 a row
 * was the first four of these bytes. A list of such rows bears no mark: whoever stores rows should store the version
 * too. */
#define MC33_ROW_BYTES 6

/* Chooses for a list of cubes: 8 corner values a cube, 2 numbers a cube (case and configuration), and MC33_ROW_BYTES
 * answer bytes a cube. Cube i has those from MC33_ROW_BYTES * i on; bytes past the last cube's stay as they are. A
 * refused list has every answer byte unchanged. Lengths are counted in values, numbers and bytes; where one is 0 its
 * pointer may be null. The answers may not overlap the corners or the numbers, and nothing may write to any of the
 * three while the call runs. */
mc33_outcome mc33_list(const float *corners, size_t corners_length, const int8_t *numbers, size_t numbers_length,
                       uint8_t *answers, size_t answers_length);

/* The same by the signs, without numbers: each cube as mc33_choose_signs has it. Its refusals are 6, where the corners
 * are not 8 values a cube, 7, and then 3 at the first cube with a corner that is a NaN or infinite. */
mc33_outcome mc33_list_signs(const float *corners, size_t corners_length, uint8_t *answers, size_t answers_length);

/* A refusal in words; 0 too, and a number that this header does not know. */
static inline const char *mc33_refusal_text(uint64_t refusal)
{
    switch (refusal) {
    case MC33_ANSWERED: return "answered";
    case MC33_NO_CASE: return "the case is below 0 or above 14";
    case MC33_NO_CONFIGURATION: return "the configuration is not one of the case's";
    case MC33_NOT_FINITE: return "a corner is a NaN or infinite";
    case MC33_NO_FACE: return "the face number is not -6..-1 or 1..6";
    case MC33_NO_EDGE: return "the edge number is not 0..11";
    case MC33_UNEVEN_LISTS: return "the list has not 8 corner values (and 2 numbers) a cube";
    case MC33_NO_ROOM: return "the list has fewer than 6 answer bytes a cube";
    case MC33_MALFORMED: return "the line is malformed";
    default: return "a refusal that this version does not know";
    }
}

/* The name of a tiling's table, as "10_1_1_"; empty for a code that is no tiling's. */
static inline const char *mc33_tiling_name(uint8_t code)
{
    static const char names[MC33_TILINGS + 1][8] = {
        "", "1", "2", "3_1", "3_2", "4_1", "4_2", "5", "6_1_1", "6_1_2", "6_2", "7_1", "7_2", "7_3", "7_4_1", "7_4_2",
        "8", "9", "10_1_1", "10_1_1_", "10_1_2", "10_2", "10_2_", "11", "12_1_1", "12_1_1_", "12_1_2", "12_2", "12_2_",
        "13_1", "13_1_", "13_2", "13_2_", "13_3", "13_3_", "13_4", "13_5_1", "13_5_2", "14"
    };
    return code <= MC33_TILINGS ? names[code] : "";
}

/* How many configurations a case has, from 0 on; 0 for case 0, which has -1 alone, and for a number that is no case. */
static inline int mc33_configurations(int case_number)
{
    static const signed char numbers[15] = {0, 16, 24, 24, 8, 48, 48, 16, 6, 8, 6, 12, 24, 2, 12};
    return 0 <= case_number && case_number < 15 ? numbers[case_number] : 0;
}

/* How many readings a choice of a case makes at most; 0 for a number that is no case. */
static inline int mc33_most_readings(int case_number)
{
    static const signed char most[15] = {0, 0, 0, 1, 3, 0, 2, 6, 0, 0, 3, 0, 4, 7, 0};
    return 0 <= case_number && case_number < 15 ? most[case_number] : 0;
}

#ifdef __cplusplus
}
#endif

#endif
