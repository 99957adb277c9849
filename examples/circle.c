/* The whole circle: grants are kept while the farm is edited, and each step takes them as they are. */
#include "reach.h"
#include <stdio.h>
#include <stdlib.h>

#define COLUMN(column) column, sizeof column / sizeof *column
#define FARM COLUMN(key), COLUMN(size), COLUMN(level), COLUMN(kind), COLUMN(name), count
#define HELD(pairs) (pairs)->role, (pairs)->length, (pairs)->row, (pairs)->length

enum { E = REACH_KIND_ELEMENT, C = REACH_KIND_COMMENT };

/* The farm of the first call, with a spare row. */
static size_t key[] = {10, 20, 21, 22, 23, 24, 30, 31, 32, 40, 0};
static size_t size[] = {9, 4, 1, 0, 1, 0, 2, 1, 0, 0, 0};
static size_t level[] = {0, 1, 2, 3, 2, 3, 1, 2, 3, 1, 0};
static size_t kind[] = {E, E, E, E, E, E, E, E, E, C, 0};
static size_t name[] = {1, 2, 3, 4, 3, 4, 2, 3, 4, 0, 0};
static size_t count = 10;

typedef struct {
    size_t role[10], row[10], length;
} pairs;

static reach_answer accepted(reach_answer answer)
{
    if (answer.refusal != 0) {
        fprintf(stderr, "refusal %zu, place %zu\n", answer.refusal, answer.place);
        exit(1);
    }
    return answer;
}

static void print_pairs(const pairs *list, const char *verb)
{
    for (size_t i = 0; i < list->length; i++) {
        printf("  %zu %s key %zu in row %zu\n", list->role[i], verb, key[list->row[i]], list->row[i]);
    }
}

/* Prints what the roles hold, and by a step which setpoints they reach. */
static void show(const char *when, const pairs *grants)
{
    pairs reached;
    reach_answer stepped = accepted(reach_step(FARM, HELD(grants), REACH_AXIS_DESCENDANT, REACH_TEST_NAMED_ELEMENT, 4,
                                               COLUMN(reached.role), COLUMN(reached.row)));
    reached.length = stepped.first;
    printf("%s\n", when);
    print_pairs(grants, "holds");
    print_pairs(&reached, "reaches");
}

/* The grants carried over an accepted edit, whose new count is taken over. */
static pairs carried(const pairs *grants, reach_answer edited)
{
    pairs list;
    reach_answer answer = accepted(reach_carry(HELD(grants), count, edited.second, edited.moved,
                                               COLUMN(list.role), COLUMN(list.row)));
    list.length = answer.first;
    count = edited.first;
    return list;
}

int main(void)
{
    /* Role 5 holds the first turbine and one of its blades, role 7 the second turbine. */
    pairs grants = {{5, 5, 7}, {1, 2, 6}, 3};
    show("at first", &grants);

    /* The blade with the key 21 goes, and the grant on it. The second turbine moves up by two rows. */
    grants = carried(&grants, accepted(reach_delete(FARM, 21)));
    show("key 21 deleted", &grants);

    /* The blade with the key 23 gets a second setpoint. The second turbine moves down by one row. */
    const size_t p_key[] = {50}, p_size[] = {0}, p_level[] = {0}, p_kind[] = {E}, p_name[] = {4};
    grants = carried(&grants, accepted(reach_insert(FARM, 23, COLUMN(p_key), COLUMN(p_size), COLUMN(p_level),
                                                    COLUMN(p_kind), COLUMN(p_name), 1)));
    show("key 50 inserted", &grants);
    return 0;
}
