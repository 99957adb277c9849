/*
 * The reach engine for C. Link target/staticlib/libreach_c.a, which `make library` proves and writes. docs/RULES.md
 * has the rules in full, with a picture of a small farm beside its table.
 *
 * A plant is a table of five columns (key, size, level, kind, name) with a count of rows in use; rows are numbered
 * from 0 in document order. A column may be longer than the count; its spare rows are never read. Each column is
 * passed as a pointer and its length in elements.
 *
 * A table is sound when each row in use is:
 *   level  how deep the row stands: 0 in row 0; in a later row from 0 to one more than in the row before; at most 63.
 *          Each row of level 0 is a root: it starts a tree, which goes on to the next root
 *   size   the number of rows in use directly after it, without a break, whose level is greater: its descendants
 *   kind   a REACH_KIND_ number: a document stands at level 0 only; text, comment and instruction have size 0
 *   name   not 0 for an element or an instruction, otherwise 0
 *   key    not 0, and unlike the key of every earlier row, whatever the tree
 * What a step keeps: the distinct pairs (role, row) that remain when redundant ones are dropped, whatever the test.
 *   descendant, descendant-or-self  a pair is redundant if the same role has a pair on an ancestor of its row
 *   ancestor, ancestor-or-self      a pair is redundant if the same role has a pair on a descendant of its row
 *   following, preceding            one pair remains for each role and tree that holds one of its pairs
 *   the other axes                  none is redundant
 *
 * Several farms in one table. One call answers for all roles of all farms, a role may hold rows in several of them, and
 * a key names one row in all. No axis leaves the tree of its context, and roots have no siblings. Deleting its root
 * takes a farm out, and reach_carry carries the grants over that as over any edit; the last farm stays. A further farm
 * comes in when the caller writes its rows behind those in use and raises the count: insertion adds only below a row.
 *
 * Who owns what. Every column is the caller's, before, during and after the call: the library keeps no pointer,
 * allocates nothing, holds no state, and may be called from several threads at once, as long as no column that one
 * call may write is lent to another. A column passed as a pointer to const is only read. Any other may be written,
 * and is left as it was, in every element, when the call is refused; in a batch this holds for the item that is
 * refused, and those before it stay done. A call needs less than 128 KB of stack.
 *
 * No input needs checking first: a bad table, pair, code, key, move or list gets a refusal. Two duties remain with the
 * caller, as for any C function: a pointer is never null (also at length 0) and reaches as many elements as the
 * length says, and a column that a function may write overlaps no other column of the call.
 *
 * Later versions may add functions, codes and refusal numbers: take a number other than 0 that is not listed here for
 * a refusal too.
 */
#ifndef REACH_H
#define REACH_H

#include <stddef.h>
#include <stdint.h>

#ifdef __cplusplus
extern "C" {
#endif

/* The library's numbers have 64 bits; where size_t has another number of them, this array has no length. */
typedef char reach_size_t_has_64_bits[sizeof(size_t) == 8 ? 1 : -1];

/* The version of this header: 0.5.0, as the major number times 10,000, the minor times 100 and the third together. */
#define REACH_VERSION 500

/* The version of the library that is linked. It is REACH_VERSION unless header and library come from two releases. */
size_t reach_version(void);

/* The limits: 1 to REACH_MOST_ROWS rows in use, levels 0 to REACH_MOST_LEVEL, at most REACH_MOST_PAIRS pairs, at most
   REACH_MOST_ITEMS items in a batch. */
enum {
    REACH_MOST_ROWS = 4096,
    REACH_MOST_LEVEL = 63,
    REACH_MOST_PAIRS = 4096,
    REACH_MOST_ITEMS = 256
};

/* What a row's kind says it is. */
enum {
    REACH_KIND_DOCUMENT = 0,
    REACH_KIND_ELEMENT = 1,
    REACH_KIND_TEXT = 2,
    REACH_KIND_COMMENT = 3,
    REACH_KIND_INSTRUCTION = 4 /* a processing instruction */
};

/* What a call answers, but for reach_find. What a function does not use is 0; on a refusal all but refusal and place
   are 0, except in a batch, whose first and second say on a refusal too how far it came. */
typedef struct {
    size_t refusal; /* 0: accepted; else the number below */
    size_t place;   /* where: a row, a pair's place or a number of results, by the number; else 0 */
    size_t first;   /* step: the number of results; edits: the new count; carry: the new length; batch: how many items
                       were done */
    size_t second;  /* step: the kept count; edits: the first moved row, in old numbering; batch: the count then */
    int64_t moved;  /* edits: by how many rows it moved, negative for a deletion */
} reach_answer;

/* What reach_find answers: where the row of the key stands. On a refusal row, level and parent are 0. */
typedef struct {
    size_t refusal; /* 0: accepted; else the number below */
    size_t place;   /* the unsound row on refusal 2; else 0 */
    size_t row;     /* the row of the key */
    size_t level;   /* its level */
    int64_t parent; /* its parent's row, or -1 for a root, which has none */
} reach_found;

/*
 * Refusal numbers. Where several apply, the lowest is given, but 17 before 8, and 18 before what an item gets. In a
 * carry, which lends no table, the count is the old one, before the edit, and the results are the pairs of the new
 * list. In a batch the row of 16 is the one at that moment, after the items before it.
 */
enum {
    /* the count is 0, above REACH_MOST_ROWS, or above the shortest table column; place 0 */
    REACH_REFUSED_BAD_COUNT = 1,
    /* a row is not sound, by the rules above; place: the least such row */
    REACH_REFUSED_UNSOUND_ROW = 2,
    /* the pair columns differ in length or exceed REACH_MOST_PAIRS; place 0 */
    REACH_REFUSED_BAD_PAIR_COLUMNS = 3,
    /* a pair is less than the one before it; place: the least such place */
    REACH_REFUSED_PAIR_OUT_OF_ORDER = 4,
    /* a pair's row is not below the count; place: the least such place */
    REACH_REFUSED_PAIR_OUTSIDE_TABLE = 5,
    /* the axis code is none of REACH_AXIS_; place 0 */
    REACH_REFUSED_BAD_AXIS = 6,
    /* the test code is none of REACH_TEST_, or the name does not fit it; place 0 */
    REACH_REFUSED_BAD_TEST = 7,
    /* more results than the shorter result column holds; place: their number */
    REACH_REFUSED_TOO_MANY_RESULTS = 8,
    /* no row in use has the key (always so for key 0); place 0 */
    REACH_REFUSED_UNKNOWN_KEY = 9,
    /* the piece would get refusal 1 or 2, or has several trees, or its row 0 is a document; place 0 */
    REACH_REFUSED_BAD_PIECE = 10,
    /* the parent is neither a document nor an element; place: its row */
    REACH_REFUSED_NOT_A_PARENT = 11,
    /* an inserted level would exceed REACH_MOST_LEVEL; place 0 */
    REACH_REFUSED_TOO_DEEP = 12,
    /* a piece's key is in the table; place: the least such piece row */
    REACH_REFUSED_KEY_TAKEN = 13,
    /* the new count would exceed REACH_MOST_ROWS or the shortest table column; place 0 */
    REACH_REFUSED_NO_ROOM = 14,
    /* the row to delete is the only root; place 0 */
    REACH_REFUSED_DELETES_ROOT = 15,
    /* the row to rename is neither an element nor an instruction, or the new name is 0; place: its row */
    REACH_REFUSED_BAD_RENAME = 16,
    /* the first moved row is 0 or above the old count, or falls below 0 once the move is added, or the new count would
       lie outside 1 to REACH_MOST_ROWS; place 0 */
    REACH_REFUSED_BAD_MOVE = 17,
    /* the item columns differ in length or exceed REACH_MOST_ITEMS, or a code anywhere in them is none of REACH_ITEM_;
       place 0 */
    REACH_REFUSED_BAD_LIST = 18
};

/* Axis codes of a step. None leaves the tree of its context. */
enum {
    REACH_AXIS_SELF = 1,
    REACH_AXIS_CHILD = 2,
    REACH_AXIS_DESCENDANT = 3,
    REACH_AXIS_DESCENDANT_OR_SELF = 4,
    REACH_AXIS_PARENT = 5,
    REACH_AXIS_ANCESTOR = 6,
    REACH_AXIS_ANCESTOR_OR_SELF = 7,
    REACH_AXIS_FOLLOWING = 8,          /* later rows of the tree that are not descendants */
    REACH_AXIS_PRECEDING = 9,          /* earlier rows of the tree that are not ancestors */
    REACH_AXIS_FOLLOWING_SIBLING = 10, /* a root has none */
    REACH_AXIS_PRECEDING_SIBLING = 11  /* a root has none */
};

/* Test codes of a step; they are other numbers than the kinds. The two named ones need a name other than 0, the others
   need name 0. */
enum {
    REACH_TEST_ANY_NODE = 0,
    REACH_TEST_ANY_ELEMENT = 1,
    REACH_TEST_NAMED_ELEMENT = 2,
    REACH_TEST_TEXT = 3,
    REACH_TEST_COMMENT = 4,
    REACH_TEST_ANY_INSTRUCTION = 5,
    REACH_TEST_NAMED_INSTRUCTION = 6,
    REACH_TEST_DOCUMENT = 7
};

/* What an item of a batch does. */
enum {
    REACH_ITEM_DELETE = 1, /* as reach_delete; the item's name is ignored */
    REACH_ITEM_RENAME = 2  /* as reach_rename */
};

/* Checks whether the table is sound: refusals 1 and 2. Reads five columns, writes none. */
reach_answer reach_check(const size_t *key, size_t key_length, const size_t *size, size_t size_length,
                         const size_t *level, size_t level_length, const size_t *kind, size_t kind_length,
                         const size_t *name, size_t name_length, size_t count);

/*
 * Finds the row of key_wanted, with its level and its parent's row: refusals 1, 2 and 9. Reads five columns, writes
 * none. The parent is the nearest earlier row whose level is one less. A row of level 0 is a root: its parent is -1.
 */
reach_found reach_find(const size_t *key, size_t key_length, const size_t *size, size_t size_length,
                       const size_t *level, size_t level_length, const size_t *kind, size_t kind_length,
                       const size_t *name, size_t name_length, size_t count, size_t key_wanted);

/*
 * One location step for all roles at once: refusals 1 to 8. Reads the table and the pairs (role, row), which
 * ascend by role, then row; equal pairs count once. Writes out_role and out_row alone: the results, strictly
 * ascending by role, then row, from place 0 on; places beyond them stay as they were. The two need not be equally
 * long. first: the number of results. second: the kept count, by the rules above.
 */
reach_answer reach_step(const size_t *key, size_t key_length, const size_t *size, size_t size_length,
                        const size_t *level, size_t level_length, const size_t *kind, size_t kind_length,
                        const size_t *name, size_t name_length, size_t count, const size_t *role, size_t role_length,
                        const size_t *row, size_t row_length, size_t axis, size_t test, size_t test_name,
                        size_t *out_role, size_t out_role_length, size_t *out_row, size_t out_row_length);

/*
 * Edits by key. They write the five table columns; the caller keeps the new count, which is in first. second is the
 * first row that moved, in old numbering, or the old count where none did; moved is the number of rows that came in,
 * or minus the number that went, or 0 after a rename. Spare rows stay as they were, but for those that an insertion
 * uses.
 */

/*
 * The piece, a table of its own with one tree, whose columns are only read, becomes the last child of the row of
 * parent_key: its levels rise by that row's level plus one, the sizes of that row and of its ancestors by p_count, and
 * later rows move down: refusals 1, 2, 9 to 14.
 */
reach_answer reach_insert(size_t *key, size_t key_length, size_t *size, size_t size_length, size_t *level,
                          size_t level_length, size_t *kind, size_t kind_length, size_t *name, size_t name_length,
                          size_t count, size_t parent_key, const size_t *p_key, size_t p_key_length,
                          const size_t *p_size, size_t p_size_length, const size_t *p_level, size_t p_level_length,
                          const size_t *p_kind, size_t p_kind_length, const size_t *p_name, size_t p_name_length,
                          size_t p_count);

/*
 * The row of key_wanted goes with its descendants, the sizes of its ancestors fall, later rows close up, and the rows
 * freed at the end are zero in all five columns: refusals 1, 2, 9, 15. With its root a whole tree goes, but not the
 * only one.
 */
reach_answer reach_delete(size_t *key, size_t key_length, size_t *size, size_t size_length, size_t *level,
                          size_t level_length, size_t *kind, size_t kind_length, size_t *name, size_t name_length,
                          size_t count, size_t key_wanted);

/* The row of key_wanted gets the name new_name; nothing else changes: refusals 1, 2, 9, 16. */
reach_answer reach_rename(size_t *key, size_t key_length, size_t *size, size_t size_length, size_t *level,
                          size_t level_length, size_t *kind, size_t kind_length, size_t *name, size_t name_length,
                          size_t count, size_t key_wanted, size_t new_name);

/*
 * Deletions and renames in one call: refusals 1, 2 and 18, in this order, then those of the items: 9 and 15 of a
 * deletion, 9 and 16 of a rename. Reads the items (code, key, name); writes the five table columns. They are left as
 * reach_delete and reach_rename leave them when the items are done one by one in their order, up to the first that is
 * refused: those before it stay done, those behind it are not tried. The table is checked only once. An empty list is
 * accepted.
 *
 * first: how many items were done, so the place in the list of the one that was refused, if any was. second: the
 * count then, which the caller keeps. refusal and place: what the refused item's own call answers at that moment. On 1,
 * 2 and 18 no item is done, no column changes, and second is the count as given.
 *
 * Grants cannot be carried over a batch by one reach_carry, since there is no single first moved row. Where grants are
 * kept, edit with reach_delete and reach_rename and carry after each; or do the items that were done once more, one by
 * one on a copy of the table as it was, and carry after each.
 */
reach_answer reach_batch(size_t *key, size_t key_length, size_t *size, size_t size_length, size_t *level,
                         size_t level_length, size_t *kind, size_t kind_length, size_t *name, size_t name_length,
                         size_t count, const size_t *item_code, size_t item_code_length, const size_t *item_key,
                         size_t item_key_length, const size_t *item_name, size_t item_name_length);

/*
 * Pairs (role, row) that are kept between edits, carried over one: refusals 1, 3, 4, 5, 17 and 8, in this order.
 * old_count is the count before the edit; first and moved are what the edit answered in second and moved. Rows at or
 * past first move by moved; on a deletion the pairs of the deleted rows are dropped, which are the -moved rows
 * directly before first. So after an accepted edit each pair that remains names the same key as before, and one is
 * dropped exactly when its key is gone. Reads the pairs, which ascend by role, then row. Writes out_role and out_row
 * alone: the new list, in the same order, equal pairs still equal, from place 0 on; places beyond it stay as they
 * were. The next step takes the new list as it is. first of the answer: its length.
 */
reach_answer reach_carry(const size_t *role, size_t role_length, const size_t *row, size_t row_length,
                         size_t old_count, size_t first, int64_t moved, size_t *out_role, size_t out_role_length,
                         size_t *out_row, size_t out_row_length);

#ifdef __cplusplus
}
#endif

#endif
