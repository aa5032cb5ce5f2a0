/* The proved chooser from C: each routine once, then lists and refused lists. */
#include <math.h>
#include <stdio.h>
#include <string.h>

#include "mc33.h"

static void print_said(mc33_choice choice)
{
    if (choice.refusal)
        printf("refused %d\n", choice.refusal);
    else
        printf("code %d row %d column %d centre %d unsettled %d unmatched %d readings %d\n", choice.code, choice.row,
               choice.column, choice.centre, choice.unsettled, choice.unmatched, choice.readings);
}

static void print_choice(int case_number, int configuration, mc33_cube cube)
{
    printf("case %d/%d: ", case_number, configuration);
    print_said(mc33_choose((int8_t)case_number, (int8_t)configuration, cube));
}

static void print_signs(mc33_cube cube)
{
    printf("by the signs: ");
    print_said(mc33_choose_signs(cube));
}

static void print_family(int set)
{
    mc33_family family = mc33_family_of((uint8_t)set);
    printf("set %d: case %d configuration %d\n", set, family.case_number, family.configuration);
}

static void print_face(mc33_cube cube, int face)
{
    mc33_face_answer said = mc33_face(cube, (int8_t)face);
    if (said.refusal)
        printf("face %d: refused %d\n", face, said.refusal);
    else
        printf("face %d: %s\n", face, said.answer ? "true" : "false");
}

static void print_trust(mc33_cube cube, int face)
{
    static const char *const words[] = {"", "sure", "turned", "unknown"};
    mc33_face_trust said = mc33_trust_face(cube, (int8_t)face);
    if (said.refusal)
        printf("trust %d: refused %d\n", face, said.refusal);
    else
        printf("trust %d: %s, %s\n", face, said.answer ? "true" : "false", words[said.trust]);
}

static void print_edge(mc33_cube cube, int edge)
{
    mc33_edge_reading read = mc33_edge(cube, (int8_t)edge);
    if (read.refusal)
        printf("edge %d: refused %d\n", edge, read.refusal);
    else if (read.kind == MC33_CROSSED)
        printf("edge %d: crossed, t %g, product %g\n", edge, read.t, read.product);
    else if (read.kind == MC33_BEYOND)
        printf("edge %d: beyond, t %g\n", edge, read.t);
    else
        printf("edge %d: %s\n", edge, read.kind == MC33_RISING ? "rising" : "blank");
}

static void print_outcome(mc33_outcome outcome)
{
    if (outcome.refusal)
        printf("refused %d at %d\n", (int)outcome.refusal, (int)outcome.place);
    else
        printf("done\n");
}

static void print_rows(const uint8_t *answers, size_t length)
{
    size_t i;
    for (i = 0; i < length; i++)
        printf("%d%c", answers[i], (i + 1) % MC33_ROW_BYTES ? ' ' : '\n');
}

/* Three cubes with their numbers, then by their signs; each answer byte is 7 beforehand. */
static void print_lists(const float *corners, const int8_t *numbers)
{
    uint8_t answers[3 * MC33_ROW_BYTES];
    memset(answers, 7, sizeof answers);
    print_outcome(mc33_list(corners, 24, numbers, 6, answers, sizeof answers));
    print_rows(answers, sizeof answers);
    memset(answers, 7, sizeof answers);
    print_outcome(mc33_list_signs(corners, 24, answers, sizeof answers));
    print_rows(answers, sizeof answers);
}

int main(void)
{
    mc33_cube tied = {{1, -1, 1, -1, -1, -1, -1, -1}};
    mc33_cube apart = {{1, -2, 1, -2, -1, -1, -1, -1}};
    mc33_cube thin = {{1e-4f, -2e-4f, 1e-4f, -2e-4f, -1, -1, -1, -1}};
    mc33_cube level = {{3, -1, -1, -1, -1, -1, 3, -1}};
    mc33_cube steep = {{9, -1, -1, -1, -1, -1, 9, -1}};
    mc33_cube flat = {{1, 1, 1, 1, 1, 1, 1, 1}};
    mc33_cube unpaired = {{-1, -1, 1, -1, -1, 1, -1, -1}};
    mc33_cube zeros = {{1, 0, 1, -0.0f, 0, -0.0f, 0, -0.0f}};
    mc33_cube broken = {{(float)HUGE_VAL, 1, 1, 1, 1, 1, 1, 1}};
    float corners[] = {
        1, -1, 1, -1, -1, -1, -1, -1,
        3, -1, -1, -1, -1, -1, 3, -1,
        1, 2, 1, 2, 1, 4, 1, 4,
    };
    int8_t numbers[] = {3, 0, 4, 0, 13, 0};

    if (mc33_version() / 1000 != MC33_VERSION_MAJOR) {
        fprintf(stderr, "the library is of version %d\n", (int)mc33_version());
        return 2;
    }
    print_choice(3, 0, tied);
    print_choice(3, 0, apart);
    print_choice(4, 0, level);
    print_choice(4, 0, flat);
    print_choice(4, 0, unpaired);
    print_choice(4, 8, level);
    print_family(5);
    print_family(250);
    print_family(255);
    print_signs(tied);
    print_signs(zeros);
    print_signs(broken);
    print_face(tied, 5);
    print_face(tied, -5);
    print_face(tied, 0);
    print_trust(apart, 5);
    print_trust(thin, 5);
    print_trust(thin, -5);
    print_trust(flat, 5);
    print_trust(tied, 0);
    print_edge(level, 0);
    print_edge(steep, 8);
    print_edge(tied, 0);
    print_edge(flat, 0);
    print_edge(tied, 12);
    printf("root of 6.25: %g\n", mc33_root(6.25f));
    printf("root of ff800000: %08lx\n", (unsigned long)mc33_root_bits(0xff800000u));

    print_lists(corners, numbers);
    corners[15] = (float)HUGE_VAL;
    print_lists(corners, numbers);
    print_outcome(mc33_list(NULL, 0, NULL, 0, NULL, 0));
    print_outcome(mc33_list_signs(NULL, 0, NULL, 0));
    return 0;
}
