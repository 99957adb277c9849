/* A first call: which setpoints of a small farm do two roles reach? */
#include "reach.h"
#include <stdio.h>

#define COLUMN(column) column, sizeof column / sizeof *column

int main(void)
{
    /* A farm (name 1) of two turbines (2) with blades (3) that each have a setpoint (4), and a comment. */
    enum { E = REACH_KIND_ELEMENT, C = REACH_KIND_COMMENT };
    const size_t key[] = {10, 20, 21, 22, 23, 24, 30, 31, 32, 40};
    const size_t size[] = {9, 4, 1, 0, 1, 0, 2, 1, 0, 0};
    const size_t level[] = {0, 1, 2, 3, 2, 3, 1, 2, 3, 1};
    const size_t kind[] = {E, E, E, E, E, E, E, E, E, C};
    const size_t name[] = {1, 2, 3, 4, 3, 4, 2, 3, 4, 0};

    /* Role 5 holds the first turbine and one of its blades, role 7 the second turbine. */
    const size_t role[] = {5, 5, 7};
    const size_t row[] = {1, 2, 6};
    size_t out_role[10], out_row[10];

    /* Which setpoints stand below what they hold? */
    reach_answer answer = reach_step(COLUMN(key), COLUMN(size), COLUMN(level), COLUMN(kind), COLUMN(name), 10,
                                     COLUMN(role), COLUMN(row), REACH_AXIS_DESCENDANT, REACH_TEST_NAMED_ELEMENT, 4,
                                     COLUMN(out_role), COLUMN(out_row));
    if (answer.refusal != 0) {
        fprintf(stderr, "refusal %zu, place %zu\n", answer.refusal, answer.place);
        return 1;
    }
    printf("role row key\n");
    for (size_t i = 0; i < answer.first; i++) {
        printf("%zu %zu %zu\n", out_role[i], out_row[i], key[out_row[i]]);
    }
    printf("pairs %zu kept %zu\n", answer.first, answer.second);
    return 0;
}
