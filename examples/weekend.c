/* A weekend's changes in one call: what stands behind a refused one is sent again. */
#include "reach.h"
#include <stdio.h>

#define COLUMN(column) column, sizeof column / sizeof *column
#define FARM COLUMN(key), COLUMN(size), COLUMN(level), COLUMN(kind), COLUMN(name), count

/* The items from one place on to the end of the list. */
#define FROM(place) item_code + (place), ITEMS - (place), item_key + (place), ITEMS - (place), item_name + (place), \
                    ITEMS - (place)

enum { E = REACH_KIND_ELEMENT, C = REACH_KIND_COMMENT, DELETE = REACH_ITEM_DELETE, RENAME = REACH_ITEM_RENAME };
enum { ITEMS = 5 };

int main(void)
{
    /* The farm of the first call. */
    size_t key[] = {10, 20, 21, 22, 23, 24, 30, 31, 32, 40};
    size_t size[] = {9, 4, 1, 0, 1, 0, 2, 1, 0, 0};
    size_t level[] = {0, 1, 2, 3, 2, 3, 1, 2, 3, 1};
    size_t kind[] = {E, E, E, E, E, E, E, E, E, C};
    size_t name[] = {1, 2, 3, 4, 3, 4, 2, 3, 4, 0};
    size_t count = 10;

    /* Friday's list. The third change comes too late: the setpoint 22 goes with its blade 21. */
    const size_t item_code[ITEMS] = {DELETE, RENAME, RENAME, DELETE, RENAME};
    const size_t item_key[ITEMS] = {21, 30, 22, 40, 24};
    const size_t item_name[ITEMS] = {0, 5, 6, 0, 6};

    for (size_t place = 0; place <= ITEMS;) {
        reach_answer batched = reach_batch(FARM, FROM(place));
        count = batched.second;
        printf("sent %zu, done %zu, count %zu\n", ITEMS - place, batched.first, count);
        if (batched.refusal == 0) {
            break;
        }
        /* On refusals 1, 2 and 18 nothing was done: the table or the list is to be mended first. */
        if (batched.refusal == REACH_REFUSED_BAD_COUNT || batched.refusal == REACH_REFUSED_UNSOUND_ROW ||
            batched.refusal == REACH_REFUSED_BAD_LIST) {
            fprintf(stderr, "refusal %zu, place %zu\n", batched.refusal, batched.place);
            return 1;
        }
        /* The refused change is struck out, and what stands behind it was not tried. */
        place += batched.first;
        printf("the change of key %zu got refusal %zu\n", item_key[place], batched.refusal);
        place += 1;
    }
    for (size_t row = 0; row < count; row++) {
        printf("  key %zu has name %zu\n", key[row], name[row]);
    }
    return 0;
}
