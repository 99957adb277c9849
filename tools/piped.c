/*
 * Answers calls that come over standard input as numbers of eight bytes, and writes the answers to standard output:
 * rust/compare/src/engine/piped.rs. No header of a C library is needed, so that the kit's clang can compile it for x86-64 on any
 * machine.
 */
#include "reach.h"

extern long read(int file, void *to, size_t bytes);
extern long write(int file, const void *from, size_t bytes);
extern void *realloc(void *old, size_t bytes);

enum { MOST_COLUMNS = 10, HEAD = 6 };

/* Whether all bytes came. */
static int get(size_t *to, size_t numbers)
{
    char *next = (char *)to;
    for (size_t left = numbers * sizeof *to; left > 0;) {
        long got = read(0, next, left);
        if (got <= 0)
            return 0;
        next += got;
        left -= (size_t)got;
    }
    return 1;
}

static void put(const void *from, size_t bytes)
{
    const char *next = from;
    while (bytes > 0) {
        long put = write(1, next, bytes);
        if (put <= 0)
            return;
        next += put;
        bytes -= (size_t)put;
    }
}

/* What goes back over the pipe, whichever of the two structs a function answers. */
typedef union {
    reach_answer answer;
    reach_found found;
} five_numbers;

/* head: code, count, three arguments, number of columns. c and n: the columns and their lengths. */
static five_numbers answer(const size_t *head, size_t **c, const size_t *n)
{
    five_numbers given;
#define TABLE c[0], n[0], c[1], n[1], c[2], n[2], c[3], n[3], c[4], n[4], head[1]
    switch (head[0]) {
    case 0:
        given.answer = reach_check(TABLE);
        break;
    case 1:
        given.found = reach_find(TABLE, head[2]);
        break;
    case 2:
        given.answer = reach_step(TABLE, c[5], n[5], c[6], n[6], head[2], head[3], head[4], c[7], n[7], c[8], n[8]);
        break;
    case 3:
        given.answer =
            reach_insert(TABLE, head[2], c[5], n[5], c[6], n[6], c[7], n[7], c[8], n[8], c[9], n[9], head[3]);
        break;
    case 4:
        given.answer = reach_delete(TABLE, head[2]);
        break;
    case 5:
        given.answer = reach_rename(TABLE, head[2], head[3]);
        break;
    case 6:
        given.answer = reach_carry(c[5], n[5], c[6], n[6], head[1], head[2], (int64_t)head[3], c[7], n[7], c[8], n[8]);
        break;
    default:
        given.answer = reach_batch(TABLE, c[5], n[5], c[6], n[6], c[7], n[7]);
    }
    return given;
}

int main(void)
{
    size_t head[HEAD], lengths[MOST_COLUMNS], room = 0;
    size_t *numbers = 0, *columns[MOST_COLUMNS];
    while (get(head, HEAD) && head[5] <= MOST_COLUMNS && get(lengths, head[5])) {
        size_t all = 0;
        for (size_t i = 0; i < head[5]; i++)
            all += lengths[i];
        if (all + 1 > room) {
            room = 2 * all + 1;
            numbers = realloc(numbers, room * sizeof *numbers);
        }
        if (!numbers || !get(numbers, all))
            return 1;
        for (size_t i = 0, at = 0; i < head[5]; at += lengths[i++])
            columns[i] = numbers + at;
        five_numbers given = answer(head, columns, lengths);
        put(&given, sizeof given);
        put(numbers, all * sizeof *numbers);
    }
    return 0;
}
