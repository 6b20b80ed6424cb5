//! The press interlock by the library: its tree, and whether the press closes with the guard shut and with it open.

#[path = "../../include/doorpigeon.rs"]
mod doorpigeon;

use doorpigeon::*;

const TEXT: &[u8] = b"[ %3 %2 %1 %0 ]:\n  1XXX => %21 %22\n  XXX0 => %21\n  0111 => %20\n  XXXX => %21\n";

/// The cells of the text: the guard, the two hand buttons and the stop; and the output that closes the press.
const GUARD: usize = 0;
const LEFT: usize = 1;
const RIGHT: usize = 2;
const STOP: usize = 3;
const CELLS: usize = 4;
const CLOSES: u16 = 20;

fn main() {
    let mut store = vec![0; NODE_RUN * NODES_MAX];
    let mut table = vec![0; MUX_RUN * MUX_MAX];
    let mut out = vec![0; TREE_TEXT_MAX];
    let closes = [cell(CLOSES)];

    // SAFETY of every call: each pointer and length are those of one slice, lent for the call.
    let read = unsafe { doorpigeon_read(TEXT.as_ptr(), TEXT.len()) };
    assert_eq!(read.no, ACCEPTED, "line {}", read.line);
    let tree = unsafe { doorpigeon_dispatch(read.matrix, ONE.into(), store.as_mut_ptr(), store.len()) };
    assert_eq!(tree.no, ACCEPTED);
    let printed = unsafe { doorpigeon_print_tree(store.as_ptr(), store.len(), tree.root, out.as_mut_ptr(), out.len()) };
    assert_eq!(printed.no, ACCEPTED);
    print!("{}", String::from_utf8_lossy(&out[..printed.value]));
    let value = unsafe {
        doorpigeon_one_hot(
            store.as_ptr(),
            store.len(),
            tree.root,
            closes.as_ptr(),
            closes.len(),
            0,
            table.as_mut_ptr(),
            table.len(),
        )
    };
    assert_eq!(value.no, ACCEPTED);
    for (name, guard) in [("open", ZERO), ("shut", ONE)] {
        let mut trits = [X; CELLS];
        trits[GUARD] = guard;
        trits[LEFT] = ONE;
        trits[RIGHT] = ONE;
        trits[STOP] = ZERO;
        let asked = value.nets[0].into();
        let bit =
            unsafe { doorpigeon_evaluate(table.as_ptr(), table.len(), value.used, trits.as_ptr(), trits.len(), asked) };
        assert_eq!(bit.no, ACCEPTED);
        println!("guard {name}: closes {}", ["0", "1", "X"][bit.value]);
    }
}
