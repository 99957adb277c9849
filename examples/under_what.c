/* Where is it, and under what? A setpoint is found by its key, and then all that it stands under. */
#include "reach.h"
#include <stdio.h>

#define COLUMN(column) column, sizeof column / sizeof *column

int main(void)
{
    /* The table of the first call. */
    enum { E = REACH_KIND_ELEMENT, C = REACH_KIND_COMMENT };
    const size_t key[] = {10, 20, 21, 22, 23, 24, 30, 31, 32, 40};
    const size_t size[] = {9, 4, 1, 0, 1, 0, 2, 1, 0, 0};
    const size_t level[] = {0, 1, 2, 3, 2, 3, 1, 2, 3, 1};
    const size_t kind[] = {E, E, E, E, E, E, E, E, E, C};
    const size_t name[] = {1, 2, 3, 4, 3, 4, 2, 3, 4, 0};

    for (size_t wanted = 24;;) {
        reach_found found =
            reach_find(COLUMN(key), COLUMN(size), COLUMN(level), COLUMN(kind), COLUMN(name), 10, wanted);
        if (found.refusal != 0) {
            fprintf(stderr, "refusal %zu, place %zu\n", found.refusal, found.place);
            return 1;
        }
        printf("key %zu in row %zu, level %zu, ", wanted, found.row, found.level);
        if (found.parent < 0) {
            printf("a root\n");
            return 0;
        }
        wanted = key[found.parent];
        printf("under key %zu in row %lld\n", wanted, (long long)found.parent);
    }
}
