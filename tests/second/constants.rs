// Examples of constants: where they are folded and where not, and that checks are made before folding and room is counted after it.
// a, b = 64, 65 on boards 0, 1.

use crate::model::central::central;
use crate::model::formula::{parse_rule, Formula};
use crate::model::progression::unfold;
use crate::model::refusal::Refusal;
use crate::model::rule_file::read;
use crate::model::state::STATE;
use crate::model::watch::load;
use crate::replay::{lent_bytes, lent_numbers};
use crate::trying::{closed, copies, deep, file, formula, handed, layout, loaded, network, progressed, stepped};

const TWO: &[u64] = &[1, 2];

// What is folded stands below next here, so that progression leaves it as it is.
#[test]
fn constants_are_folded_below_next() {
    for (operand, wanted) in [
        (&[3, 1, 64][..], &[64][..]),
        (&[8, 4, 64, 2, 1], &[8, 64]),
        (&[6, 0, 64], &[64]),
        (&[6, 64, 1], &[1]),
        (&[6, 64, 0], &[0]),
        (&[6, 1, 64], &[6, 1, 64]),
        (&[6, 2, 0, 64], &[6, 1, 64]),
        (&[6, 7, 1, 3, 64, 8, 0], &[0]),
        (&[2, 2, 64], &[2, 2, 64]),
        (&[3, 64, 64], &[3, 64, 64]),
        (&[4, 3, 1, 64, 64], &[4, 64, 64]),
    ] {
        assert_eq!(progressed(&[&[5], operand].concat()), wanted, "{operand:?}");
    }
}

// A part that folding drops must be good all the same.
#[test]
fn a_formula_is_checked_before_it_is_folded() {
    let mut output = lent_bytes(4096);
    assert_eq!(central(&[3, 0, 128], 0, &mut output), Err(Refusal::Formula));
    assert_eq!(central(&[4, 1, 9], 0, &mut output), Err(Refusal::Formula));
    assert_eq!(central(&[3, 0, 64, 64], 0, &mut output), Err(Refusal::Formula));
    assert_eq!(output, lent_bytes(4096));
    let mut file = file(TWO, &[3, 0, 65]);
    let mut state = lent_bytes(STATE as u64);
    for foreign in [66, 128] {
        *file.last_mut().unwrap() = foreign;
        assert_eq!(load(&file, &mut state), Err(Refusal::Formula));
    }
    assert_eq!(state, lent_bytes(STATE as u64));
}

// Too many nodes as written and few folded; the same for slots. That slots may become too many is a worked value.
#[test]
fn room_is_counted_when_constants_are_folded() {
    deep(|| {
        let large = [vec![3, 1], vec![8; 87], vec![64]].concat();
        assert!(unfold(&parse_rule(&[vec![8], large.clone()].concat()).unwrap()).nodes() > 4096);
        assert_eq!(progressed(&[vec![4, 1], vec![8; 4093], vec![64]].concat()), [1]);
        assert_eq!(progressed(&[vec![3, 0], large.clone()].concat()), [0]);
        assert_eq!(network(&loaded(TWO, &large).unwrap()).nodes, 4090);
        assert_eq!(loaded(TWO, &[vec![8], large].concat()), Err(Refusal::Nodes));
        assert_eq!(network(&loaded(TWO, &[vec![3, 7, 0], copies(64)].concat()).unwrap()).nodes, 1);
    });
}

#[test]
fn read_and_write_give_constants_as_written() {
    let formula = [8, 3, 64, 4, 6, 0, 65, 1];
    let file = file(TWO, &formula);
    assert_eq!(file[32..], formula);
    let (mut masks, mut nodes) = (lent_numbers(16), lent_bytes(1024));
    assert_eq!(read(&file, &mut masks, &mut nodes).map(|counts| counts.nodes), Ok(8));
    assert_eq!(nodes[..8], formula);
}

#[test]
fn a_constant_is_laid_on_board_0() {
    let state = loaded(&[0, 1], &[4, 64, 3, 5, 1, 8, 1]).unwrap();
    let slots = network(&state).slots;
    assert_eq!((slots.len(), slots[0].board, &slots[0].formula), (1, 0, &Formula::True));
}

// The true in an until has no choice, and the place that it is found in is board 1's.
#[test]
fn true_on_the_left_of_until_stays_where_it_is() {
    assert_eq!(layout(TWO, &[6, 1, 65]), [(1, vec![4, 65, 3, 1, 5, 6, 1, 65])]);
}

// A watch that was begun before constants were folded goes on as it did: steps and closes do not fold.
#[test]
fn a_saved_state_is_not_folded() {
    let always_true = [(0, false, formula(&[3, 1, 5, 8, 1]))];
    let state = handed(&[(1, None), (2, None)], &always_true);
    let after = stepped(&state, 0);
    assert_eq!(network(&after).slots[0].formula, formula(&[8, 1]));
    let closed = network(&closed(&after).unwrap());
    assert_eq!((closed.ticks, &closed.slots[0].formula), (1, &formula(&[3, 1, 5, 8, 1])));
}
