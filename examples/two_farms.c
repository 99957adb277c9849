/* Two farms in one table: no step leaves a farm, and a farm goes with its root. */
#include "reach.h"
#include <stdio.h>
#include <stdlib.h>

#define COLUMN(column) column, sizeof column / sizeof *column
#define FARMS COLUMN(key), COLUMN(size), COLUMN(level), COLUMN(kind), COLUMN(name), count
#define HELD(pairs) (pairs)->role, (pairs)->length, (pairs)->row, (pairs)->length

enum { E = REACH_KIND_ELEMENT };

/* A farm (name 1) of two turbines (2) with a setpoint (4) each, and another one behind it. */
static size_t key[] = {10, 20, 22, 30, 32, 50, 60, 62, 70, 72};
static size_t size[] = {4, 1, 0, 1, 0, 4, 1, 0, 1, 0};
static size_t level[] = {0, 1, 2, 1, 2, 0, 1, 2, 1, 2};
static size_t kind[] = {E, E, E, E, E, E, E, E, E, E};
static size_t name[] = {1, 2, 4, 2, 4, 1, 2, 4, 2, 4};
static size_t count = 10;

typedef struct {
    size_t role[10], row[10], length;
} pairs;

static reach_answer accepted(reach_answer answer)
{
    if (answer.refusal != 0) {
        fprintf(stderr, "refusal %zu, place %zu\n", answer.refusal, answer.place);
        exit(1);
    }
    return answer;
}

static void print_pairs(const pairs *list, const char *verb)
{
    for (size_t i = 0; i < list->length; i++) {
        printf("  %zu %s key %zu in row %zu\n", list->role[i], verb, key[list->row[i]], list->row[i]);
    }
}

/* Prints what the roles hold, and by a step which turbines come after it in the same farm. */
static void show(const char *when, const pairs *grants)
{
    pairs reached;
    reach_answer stepped = accepted(reach_step(FARMS, HELD(grants), REACH_AXIS_FOLLOWING, REACH_TEST_NAMED_ELEMENT, 2,
                                               COLUMN(reached.role), COLUMN(reached.row)));
    reached.length = stepped.first;
    printf("%s\n", when);
    print_pairs(grants, "holds");
    print_pairs(&reached, "reaches");
    printf("  pairs %zu kept %zu\n", stepped.first, stepped.second);
}

int main(void)
{
    /* Role 5 holds both turbines of the first farm and a turbine of the second, role 7 that one too. */
    const pairs grants = {{5, 5, 5, 7}, {1, 3, 6, 6}, 4};
    show("two farms", &grants);

    /* The first farm goes, and the grants on it. The second one moves up by five rows. */
    reach_answer deleted = accepted(reach_delete(FARMS, 10));
    pairs left;
    left.length = accepted(reach_carry(HELD(&grants), count, deleted.second, deleted.moved, COLUMN(left.role),
                                       COLUMN(left.row))).first;
    count = deleted.first;
    show("key 10 deleted", &left);
    return 0;
}
