/* Doorpigeon for C: priority match matrices lowered to mux trees. Link libabi.a, which the script `staticlib` writes. It is
 * built for Linux on x86-64, with the calling convention of C there (System V).
 *
 * Every function may be given anything: whatever it is handed, it ends, reads and writes only what it was lent, and
 * answers a number, 0 where it accepted and otherwise the lowest that applies, but 12 before all others. The numbers
 * are those of enum doorpigeon_number; README.md says what to do about each.
 * A buffer is lent as a pointer and its length in elements. Pass a valid pointer with length 0 too: nothing is said of
 * a null one. No function keeps a pointer. Buffers of one call must not overlap where one of them is written.
 *
 * A net is a number: 0, 1 and 2 are the constants 0, 1 and X, and DOORPIGEON_CELL(k) is cell k. Cells up to 9,999 are
 * free to use; cell 10,000 + k is driven by entry k of a mux table. In an array a number over that of cell 18,191 is no
 * net and is refused 12. A net that is passed alone is a cell from 3 up, however large; over 9,999 it is refused 4, and
 * by doorpigeon_evaluate 12 unless an entry drives it. A trit is 0, 1 or 2 (X). A column is an index from the lowest.
 *
 * A node store holds a tree in entries of nine numbers, the zero arm's, then the one arm's, then the branch. A leaf is
 * how many rules it has, their cells' numbers (k and not 3 + k) ascending, and zeros; so the empty leaf is all zeros. A
 * branch is 9, the tested cell's number, how many entries its one arm has, and zeros.
 */
#ifndef DOORPIGEON_H
#define DOORPIGEON_H

#include <stddef.h>
#include <stdint.h>

#define DOORPIGEON_COLUMNS_MAX 16
#define DOORPIGEON_ROWS_MAX 64
#define DOORPIGEON_RULES_MAX 8
#define DOORPIGEON_OUTPUTS_MAX 512
#define DOORPIGEON_WIDTH_MAX 64
#define DOORPIGEON_NODES_MAX 1024       /* entries of a node store */
#define DOORPIGEON_NODE_RUN 9           /* numbers of an entry of a node store */
#define DOORPIGEON_MUX_MAX 8192         /* entries of a mux table */
#define DOORPIGEON_MUX_RUN 3            /* numbers of an entry: select, one arm, zero arm */
#define DOORPIGEON_TEXT_MAX 4773        /* bytes of the longest printed matrix */
#define DOORPIGEON_TREE_TEXT_MAX 559082 /* bytes of the longest printed tree: 511 tests on a path, eight rules in every leaf */

/* The trits, and the nets that are constants. */
#define DOORPIGEON_ZERO 0
#define DOORPIGEON_ONE 1
#define DOORPIGEON_X 2

/* The net that is cell k. */
#define DOORPIGEON_CELL(k) (3 + (k))

enum doorpigeon_number {
    DOORPIGEON_ACCEPTED = 0,
    DOORPIGEON_REFUSED_COLUMNS = 1,  /* over 16 columns, in a matrix or in the one to be made */
    DOORPIGEON_REFUSED_ROWS = 2,     /* over 64 rows, likewise */
    DOORPIGEON_REFUSED_SHAPE = 3,    /* a pattern that is shorter or longer than there are columns */
    DOORPIGEON_REFUSED_NET = 4,      /* a cell over 9,999, or a constant where only a cell will do */
    DOORPIGEON_REFUSED_RULES = 5,    /* a row with over 8 different rules */
    DOORPIGEON_REFUSED_CATCH = 6,    /* dispatch without a last row of X in every column */
    DOORPIGEON_REFUSED_NODES = 7,    /* more nodes at once than the store has entries, or than 1,024 */
    DOORPIGEON_REFUSED_WIDTH = 8,    /* a value of over 64 bits, or an update that is not as wide as the default */
    DOORPIGEON_REFUSED_OVERLAP = 9,  /* a leaf that names two nets with updates */
    DOORPIGEON_REFUSED_ROOM = 10,    /* a table or a buffer without room for all of it */
    DOORPIGEON_REFUSED_LINE = 11,    /* a text that is no printed matrix */
    DOORPIGEON_REFUSED_FORM = 12     /* a number that codes nothing, or a matrix, tree or table that is none */
};

#ifdef __cplusplus
extern "C" {
#endif

typedef struct {
    uint16_t items[DOORPIGEON_RULES_MAX];
    size_t count;
} doorpigeon_rules;

typedef struct {
    uint8_t pattern[DOORPIGEON_COLUMNS_MAX];
    size_t len;
    doorpigeon_rules rules;
} doorpigeon_row;

/* Nets of the columns, the lowest first; rows, the first that matches wins. */
typedef struct {
    uint16_t value[DOORPIGEON_COLUMNS_MAX];
    size_t columns;
    doorpigeon_row rows[DOORPIGEON_ROWS_MAX];
    size_t count;
} doorpigeon_matrix;

/* The number, and the matrix made: 0 past every count. Refused: the matrix that was handed in. */
typedef struct {
    uint8_t no;
    doorpigeon_matrix matrix;
} doorpigeon_made;

/* The number, 11 where the text is refused, with the line; then the matrix has no columns and no rows. */
typedef struct {
    uint8_t no;
    size_t line;
    doorpigeon_matrix matrix;
} doorpigeon_read_made;

/* The number, and where accepted the nets, 0 past the count. */
typedef struct {
    uint8_t no;
    uint16_t nets[DOORPIGEON_OUTPUTS_MAX];
    size_t count;
} doorpigeon_outputs_made;

/* The number, and where there is a tree the place of its root and how many entries it has. */
typedef struct {
    uint8_t no;
    size_t root;
    size_t size;
} doorpigeon_dispatched;

/* The number, and where accepted the nets of the value, bit 0 first, and the entries then in use. */
typedef struct {
    uint8_t no;
    uint16_t nets[DOORPIGEON_WIDTH_MAX];
    size_t width;
    size_t used;
} doorpigeon_emitted;

/* The number, and what is answered where accepted: a size, a length or a trit. */
typedef struct {
    uint8_t no;
    size_t value;
} doorpigeon_answered;

/* A matrix with these columns, the lowest first, and no rows; refused, one without columns. Reads `nets`. */
doorpigeon_made doorpigeon_new(const uint16_t *nets, size_t nets_len);

/* One row more, the last. Reads `pattern` (a trit a column, the lowest first) and `rules` (in any order; repeats count
 * once). */
doorpigeon_made doorpigeon_add(doorpigeon_matrix matrix, const uint8_t *pattern, size_t pattern_len, const uint16_t *rules, size_t rules_len);

/* The child's columns after the matrix's own. A row that names `at` becomes as many rows as the child has, in the
 * child's order: its pattern and then the child's, its rules, `at` among them, and the child's. Rows that do not name
 * it look at none of the child's columns. */
doorpigeon_made doorpigeon_merge(doorpigeon_matrix matrix, uint32_t at, doorpigeon_matrix child);

/* The enable as one more column, the last: the rows that there are want 1 in it, and a row put before them, with 0 in it
 * and X elsewhere and without rules, wins where the enable is 0. At a constant X no row matches. A constant 1 adds
 * nothing, neither column nor row. */
doorpigeon_made doorpigeon_add_enable(doorpigeon_matrix matrix, uint32_t enable);

/* Every column of the net `target`, which may be a constant, becomes the constant `value`, a trit. */
doorpigeon_made doorpigeon_assume(doorpigeon_matrix matrix, uint32_t target, uint8_t value);

/* Without the rows that repeat the one before them or follow one of X, those that a constant column cannot match, and
 * those that want both 0 and 1 of one net; then without the columns that are constant, a repeat (the net's first column
 * takes its mask where it had X), or X in every row left. Done again it may take more away. */
doorpigeon_made doorpigeon_normalize(doorpigeon_matrix matrix);

/* The nets that rows name, ascending, each once. */
doorpigeon_outputs_made doorpigeon_outputs(doorpigeon_matrix matrix);

/* The tree of the matrix with its enable added, into the first entries of `store`; the last row of the matrix must be X
 * in every column. After the tree, and where it is refused from the first entry on, the first 1,024 entries (or all, if
 * fewer) are empty leaves; nothing beyond them is written. What stood in the store is not read. */
doorpigeon_dispatched doorpigeon_dispatch(doorpigeon_matrix matrix, uint32_t enable, uint16_t *store, size_t store_len);

/* The size of the tree whose root is entry `root`, from 0, or 12. Reads `store`. */
doorpigeon_answered doorpigeon_check(const uint16_t *store, size_t store_len, size_t root);

/* One net an output, 1 where the leaf reached names it; outputs in any order, repeated or not. Reads `store` and
 * `outputs`; writes only the entries of `table` that it adds after the `count` in use, and none where it refuses. */
doorpigeon_emitted doorpigeon_one_hot(const uint16_t *store, size_t store_len, size_t root, const uint16_t *outputs, size_t outputs_len, size_t count, uint16_t *table, size_t table_len);

/* A leaf's update, else the default, `fallback`. Update i is for nets[i] and has the next widths[i] of the bits, or as
 * many as are left; a later one for the same net counts. Reads all but `table`; writes only the entries of `table` that
 * it adds after the `count` in use, and none where it refuses. */
doorpigeon_emitted doorpigeon_disjoint(const uint16_t *store, size_t store_len, size_t root, const uint16_t *nets, size_t nets_len, const size_t *widths, size_t widths_len, const uint16_t *bits, size_t bits_len, const uint16_t *fallback, size_t fallback_len, size_t count, uint16_t *table, size_t table_len);

/* How many of the enables, from the first on, can be taken before a leaf names two of them (one that is given twice is
 * two) or one is not among the outputs. Reads all three. */
doorpigeon_answered doorpigeon_prefix(const uint16_t *store, size_t store_len, size_t root, const uint16_t *outputs, size_t outputs_len, const uint16_t *enables, size_t enables_len);

/* The trit of one net, by the first `count` entries of `table`. `trits` has cell k at index k; cells past its end are X,
 * and what stands past index 9,999 is not read. Reads both. */
doorpigeon_answered doorpigeon_evaluate(const uint16_t *table, size_t table_len, size_t count, const uint8_t *trits, size_t trits_len, uint32_t asked);

/* The matrix as text, and how many bytes. Writes no byte after the text, and none where it refuses. */
doorpigeon_answered doorpigeon_print(doorpigeon_matrix matrix, uint8_t *out, size_t out_len);

/* The tree whose root is entry `root` as text, and how many bytes. Reads `store`; writes as doorpigeon_print does. */
doorpigeon_answered doorpigeon_print_tree(const uint16_t *store, size_t store_len, size_t root, uint8_t *out, size_t out_len);

/* The matrix of which `text` is the print; any other text is refused, with its first wrong line, from 1. Reads `text`. */
doorpigeon_read_made doorpigeon_read(const uint8_t *text, size_t text_len);

#ifdef __cplusplus
}
#endif

#endif
