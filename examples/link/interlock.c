/* The press interlock by the C library: its tree, and whether the press closes with the guard shut and with it open. */
#include <stdio.h>

#include "doorpigeon.h"

enum { GUARD, LEFT, RIGHT, STOP, CELLS };
enum { CLOSES = 20 };

static const char text[] = "[ %3 %2 %1 %0 ]:\n"
                           "  1XXX => %21 %22\n"
                           "  XXX0 => %21\n"
                           "  0111 => %20\n"
                           "  XXXX => %21\n";

static uint16_t store[DOORPIGEON_NODE_RUN * DOORPIGEON_NODES_MAX];
static uint16_t table[DOORPIGEON_MUX_RUN * DOORPIGEON_MUX_MAX];
static uint8_t out[DOORPIGEON_TREE_TEXT_MAX];

static int refused(const char *call, unsigned no) {
    fprintf(stderr, "%s refused %u\n", call, no);
    return 1;
}

int main(void) {
    doorpigeon_read_made read = doorpigeon_read((const uint8_t *)text, sizeof text - 1);
    if (read.no == DOORPIGEON_REFUSED_LINE) {
        fprintf(stderr, "line %zu is that of no printed matrix\n", read.line);
        return 1;
    }

    doorpigeon_dispatched tree = doorpigeon_dispatch(read.matrix, DOORPIGEON_ONE, store, sizeof store / sizeof *store);
    if (tree.no != DOORPIGEON_ACCEPTED)
        return refused("dispatch", tree.no);

    doorpigeon_answered printed = doorpigeon_print_tree(store, sizeof store / sizeof *store, tree.root, out, sizeof out);
    if (printed.no != DOORPIGEON_ACCEPTED)
        return refused("print_tree", printed.no);
    fwrite(out, 1, printed.value, stdout);

    const uint16_t closes = DOORPIGEON_CELL(CLOSES);
    doorpigeon_emitted value = doorpigeon_one_hot(store, sizeof store / sizeof *store, tree.root, &closes, 1, 0, table, sizeof table / sizeof *table);
    if (value.no != DOORPIGEON_ACCEPTED)
        return refused("one_hot", value.no);

    for (unsigned shut = 0; shut < 2; shut++) {
        uint8_t trits[CELLS] = {[GUARD] = shut, [LEFT] = DOORPIGEON_ONE, [RIGHT] = DOORPIGEON_ONE, [STOP] = DOORPIGEON_ZERO};
        doorpigeon_answered bit = doorpigeon_evaluate(table, sizeof table / sizeof *table, value.used, trits, CELLS, value.nets[0]);
        if (bit.no != DOORPIGEON_ACCEPTED)
            return refused("evaluate", bit.no);
        printf("guard %s: closes %c\n", shut ? "shut" : "open", "01X"[bit.value]);
    }
    return 0;
}
