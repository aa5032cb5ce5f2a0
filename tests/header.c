/* What include/mc33.h says by itself, held to the library: its version, the configurations of each case, the names of
 * the tilings by document 01's cubes, its examples of what is counted and of which faces can be trusted, the size of a
 * row, the families of all sets, and that a choice by the signs is that of the family. Prints what differs; the status
 * is 1 where something did. */
#include <math.h>
#include <stdio.h>
#include <string.h>

#include "mc33.h"

static int wrong;

static void held(int holds, const char *what, int number)
{
    if (holds)
        return;
    printf("not so: %s (%d)\n", what, number);
    wrong++;
}

static void configurations(void)
{
    mc33_cube ones = {{1, 1, 1, 1, 1, 1, 1, 1}};
    int k, c;
    for (k = -128; k < 128; k++)
        for (c = -128; c < 128; c++) {
            int expected = k < 0 || k > 14 ? MC33_NO_CASE
                : (k == 0 && c == -1) || (0 <= c && c < mc33_configurations(k)) ? MC33_ANSWERED
                : MC33_NO_CONFIGURATION;
            held(mc33_choose((int8_t)k, (int8_t)c, ones).refusal == expected, "a case's configurations", k);
        }
}

/* The code that document 01 gives for the cube has the name. */
static void named(int8_t k, int8_t c, mc33_cube cube, const char *name)
{
    mc33_choice choice = mc33_choose(k, c, cube);
    held(choice.refusal == 0 && strcmp(mc33_tiling_name(choice.code), name) == 0, name, choice.code);
}

static void names(void)
{
    static const int plain[] = {1, 2, 5, 8, 9, 11, 14};
    mc33_cube joined = {{2, -1, 2, -1, -1, -1, -1, -1}}, apart = {{1, -2, 1, -2, -1, -1, -1, -1}};
    mc33_cube near_corners = {{1, -1, -1, -1, -1, -1, 1, -1}}, through = {{9, -1, -1, -1, -1, -1, 9, -1}};
    mc33_cube seven = {{1, -1, 1, -1, -1, 1, -1, -1}}, ten = {{1, 1, -1, -1, -1, -1, 1, 1}};
    mc33_cube twelve = {{1, 1, 1, -1, -1, -1, -1, 1}}, all = {{1, -1, 1, -1, -1, 1, -1, 1}};
    mc33_cube none = {{1, -2, 1, -2, -2, 1, -2, 1}};
    char name[4];
    size_t i;
    for (i = 0; i < sizeof plain / sizeof *plain; i++) {
        sprintf(name, "%d", plain[i]);
        named((int8_t)plain[i], 0, joined, name);
    }
    named(3, 0, joined, "3_2");
    named(3, 0, apart, "3_1");
    named(4, 0, near_corners, "4_1");
    named(4, 0, through, "4_2");
    named(7, 0, seven, "7_4_2");
    named(10, 0, ten, "10_1_2");
    named(12, 0, twelve, "12_1_2");
    named(13, 0, all, "13_1_");
    named(13, 0, none, "13_1");
    held(strlen(mc33_tiling_name(MC33_EMPTY)) == 0, "empty has no name", 0);
    held(strlen(mc33_tiling_name(MC33_TILINGS + 1)) == 0, "39 has no name", 39);
    held(strlen(mc33_tiling_name(MC33_NO_TILING)) == 0, "no tiling has no name", 255);
}

static void texts(void)
{
    int i, k;
    for (i = 0; i < 12; i++)
        for (k = 0; k < i; k++)
            held((strcmp(mc33_refusal_text((uint64_t)i), mc33_refusal_text((uint64_t)k)) != 0) == (k < 9),
                 "each refusal has a text of its own", i);
    held(strcmp(mc33_refusal_text(UINT64_MAX), mc33_refusal_text(9)) == 0, "9 is no refusal; any number has a text", 9);
}

/* The header's own examples of what is counted. */
static void counts(void)
{
    mc33_cube flat = {{1, 1, 1, 1, 1, 1, 1, 1}}, unpaired = {{-1, -1, 1, -1, -1, 1, -1, -1}};
    mc33_choice choice = mc33_choose(4, 0, flat);
    held(choice.unsettled == 3 && choice.unmatched == 0, "all corners 1 in case 4", choice.unsettled);
    choice = mc33_choose(4, 0, unpaired);
    held(choice.unsettled == 0 && choice.unmatched == 3, "corners 2 and 5 in case 4", choice.unmatched);
    held(choice.readings == 3 && mc33_most_readings(4) == 3, "readings of case 4", choice.readings);
    held(mc33_most_readings(13) == 7, "most readings of case 13", mc33_most_readings(13));
    held(mc33_most_readings(-1) == 0 && mc33_most_readings(15) == 0, "no case, no readings", 15);
    held(sizeof(mc33_choice) == 8, "a choice has 8 bytes", (int)sizeof(mc33_choice));
}

static void sizes(void)
{
    float corners[16] = {1, 1, 1, 1, 1, 1, 1, 1, 1, 1, 1, 1, 1, 1, 1, 1};
    int8_t numbers[4] = {1, 0, 1, 0};
    uint8_t answers[2 * MC33_ROW_BYTES];
    held(sizeof(mc33_cube) == 32, "a cube has 32 bytes", (int)sizeof(mc33_cube));
    held(mc33_list(corners, 16, numbers, 4, answers, sizeof answers).refusal == 0, "room for two rows", 0);
    held(mc33_list(corners, 16, numbers, 4, answers, sizeof answers - 1).refusal == MC33_NO_ROOM, "a byte less", 0);
    held(mc33_list(corners, 16, numbers, 4, answers, 4 * 2).refusal == MC33_NO_ROOM, "two rows of before 5.0", 0);
    held(mc33_version() == MC33_VERSION, "the version", (int)mc33_version());
}

/* A row has the numbers of the choice in their order. */
static void rows(void)
{
    mc33_cube cube = {{-1, -1, 1, -1, -1, 1, -1, -1}};
    int8_t numbers[2] = {0, 0};
    uint8_t row[MC33_ROW_BYTES];
    int case_number;
    for (case_number = 1; case_number < 15; case_number++) {
        mc33_choice choice = mc33_choose((int8_t)case_number, 0, cube);
        numbers[0] = (int8_t)case_number;
        held(mc33_list(cube.c, 8, numbers, 2, row, sizeof row).refusal == 0, "a list of one cube", case_number);
        held(row[0] == choice.code && row[1] == choice.row && row[2] == choice.column, "its tiling", case_number);
        held(row[3] == choice.centre + 2 * choice.unsettled, "its fourth byte", row[3]);
        held(row[4] == choice.unmatched && row[5] == choice.readings, "its last bytes", case_number);
    }
}

/* 0 and 255 have case 0; each other set is the only one of its case and configuration. */
static void families(void)
{
    static int seen[15][48];
    int set;
    for (set = 0; set < 256; set++) {
        mc33_family family = mc33_family_of((uint8_t)set);
        int k = family.case_number, c = family.configuration;
        if (set == 0 || set == 255)
            held(k == 0 && c == -1, "the family of no corners or all", set);
        else
            held(0 < k && 0 <= c && c < mc33_configurations(k) && seen[k][c]++ == 0, "a family of its own", set);
    }
    held(mc33_family_of(5).case_number == 3 && mc33_family_of(5).configuration == 0, "corners 0 and 2", 5);
    held(sizeof(mc33_family) == 2, "a family has 2 bytes", (int)sizeof(mc33_family));
}

/* A cube with this set, whose corners off it have the same value. */
static mc33_cube cube_of(int set, float off)
{
    mc33_cube cube;
    int corner;
    for (corner = 0; corner < 8; corner++)
        cube.c[corner] = set >> corner & 1 ? 1.0f + (float)corner : off;
    return cube;
}

/* The choice by the signs and the row by the signs are those of the set's family. */
static void by_signs(int set, mc33_cube cube)
{
    mc33_family family = mc33_family_of((uint8_t)set);
    int8_t numbers[2];
    uint8_t row[MC33_ROW_BYTES], own[MC33_ROW_BYTES];
    mc33_choice choice = mc33_choose(family.case_number, family.configuration, cube), found = mc33_choose_signs(cube);
    numbers[0] = family.case_number;
    numbers[1] = family.configuration;
    held(choice.refusal == 0 && memcmp(&choice, &found, sizeof choice) == 0, "a choice by the signs", set);
    held(mc33_list(cube.c, 8, numbers, 2, row, sizeof row).refusal == 0, "a list of one cube", set);
    held(mc33_list_signs(cube.c, 8, own, sizeof own).refusal == 0, "a list of it by the signs", set);
    held(memcmp(row, own, sizeof row) == 0, "its row", set);
}

/* No zero belongs to the set, and without one no pick is without a match. */
static void signs(void)
{
    int set;
    for (set = 0; set < 256; set++) {
        by_signs(set, cube_of(set, -2.0f));
        held(mc33_choose_signs(cube_of(set, -2.0f)).unmatched == 0, "no pick without a match", set);
        by_signs(set, cube_of(set, 0.0f));
        by_signs(set, cube_of(set, -0.0f));
    }
}

/* The refusals by the signs, and their order. */
static void signs_refused(void)
{
    float corners[16] = {1, 1, 1, 1, 1, 1, 1, 1, -1, -1, -1, -1, -1, -1, -1, (float)HUGE_VAL};
    mc33_cube infinite = {{1, 1, 1, 1, 1, 1, 1, (float)HUGE_VAL}}, none = {{0, 0, 0, 0, 0, 0, 0, 0}};
    uint8_t answers[2 * MC33_ROW_BYTES];
    mc33_outcome said;
    infinite.c[0] = infinite.c[7] - infinite.c[7];
    held(mc33_choose_signs(infinite).refusal == MC33_NOT_FINITE, "a cube that is not finite", 3);
    held(mc33_choose_signs(none).refusal == 0 && mc33_choose_signs(none).code == MC33_EMPTY, "a cube of zeros", 0);
    held(mc33_list_signs(corners, 15, answers, 0).refusal == MC33_UNEVEN_LISTS, "15 values", 6);
    held(mc33_list_signs(corners, 16, answers, sizeof answers - 1).refusal == MC33_NO_ROOM, "no room", 7);
    said = mc33_list_signs(corners, 16, answers, sizeof answers);
    held(said.refusal == MC33_NOT_FINITE && said.place == 1, "the first cube that is not finite", (int)said.place);
    held(mc33_list_signs(NULL, 0, NULL, 0).refusal == 0, "no cubes by the signs", 0);
}

/* The header's own examples of trust, with corners 0 to 3, and with either sign of the face. */
static void trusted(float a, float b, float c, float d, int answer, int other, int trust)
{
    mc33_cube cube = {{-1, -1, -1, -1, -1, -1, -1, -1}};
    mc33_face_trust said;
    cube.c[0] = a;
    cube.c[1] = b;
    cube.c[2] = c;
    cube.c[3] = d;
    said = mc33_trust_face(cube, 5);
    held(said.refusal == 0 && said.answer == answer && said.trust == trust, "the trust of face 5", said.trust);
    said = mc33_trust_face(cube, -5);
    held(said.refusal == 0 && said.answer == other && said.trust == trust, "the trust of face -5", said.trust);
}

/* The answer and the refusal are those of the face test. */
static void trusted_as_answered(mc33_cube cube)
{
    int face;
    for (face = -128; face < 128; face++) {
        mc33_face_answer answer = mc33_face(cube, (int8_t)face);
        mc33_face_trust said = mc33_trust_face(cube, (int8_t)face);
        held(said.refusal == answer.refusal && said.answer == answer.answer, "the answer of a face", face);
        held(said.refusal ? said.trust == 0 : MC33_SURE <= said.trust && said.trust <= MC33_UNKNOWN, "a trust", face);
    }
}

static void trusts(void)
{
    mc33_cube infinite = {{1, 1, 1, 1, 1, 1, 1, (float)HUGE_VAL}};
    int set;
    trusted(1, -2, 1, -2, 0, 1, MC33_SURE);
    trusted(1, -1, 1, -1, 1, 0, MC33_SURE);
    trusted(1e-4f, -2e-4f, 1e-4f, -2e-4f, 1, 0, MC33_TURNED);
    trusted(1, 1, 1, 1, 1, 0, MC33_UNKNOWN);
    for (set = 0; set < 256; set++) {
        trusted_as_answered(cube_of(set, -2.0f));
        trusted_as_answered(cube_of(set, 0.0f));
    }
    held(mc33_trust_face(infinite, 7).refusal == MC33_NO_FACE, "no face, before the corners", 7);
    held(mc33_trust_face(infinite, 1).refusal == MC33_NOT_FINITE, "a corner off the face that is not finite", 1);
    held(sizeof(mc33_face_trust) == 3, "a face's trust has 3 bytes", (int)sizeof(mc33_face_trust));
}

int main(void)
{
    configurations();
    names();
    texts();
    counts();
    sizes();
    rows();
    families();
    signs();
    signs_refused();
    trusts();
    printf(wrong ? "header: %d wrong\n" : "header: as the library has it\n", wrong);
    return wrong != 0;
}
