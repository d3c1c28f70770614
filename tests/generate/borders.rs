// Rules right at and right past each border, one request to read, write and load for each, and the codes at the borders of
// their ranges, each alone to central. They come after the worked values in every stream, since chance meets some too seldom.

use crate::files;
use crate::request::Request;
use crate::rules::Rule;
use crate::script::Script;
use crate::write;

// A rule with these counts that is good wherever they are: propositions dealt out in turn, nots before the highest of them.
fn counted(boards: usize, propositions: u64, nodes: usize) -> Rule {
    let mut masks = vec![0; boards];
    for i in 0..propositions.min(64) {
        if boards > 0 {
            masks[i as usize % boards] |= 1 << i;
        }
    }
    let highest = propositions.clamp(1, 64) as u8 - 1;
    let formula = if nodes == 0 { Vec::new() } else { [vec![2; nodes - 1], vec![64 + highest]].concat() };
    Rule { masks, propositions, formula }
}

fn masked(propositions: u64, masks: &[u64]) -> Rule {
    Rule { masks: masks.to_vec(), propositions, formula: vec![64] }
}

fn lone(propositions: u64, code: u8) -> Rule {
    Rule { formula: vec![code], ..counted(2, propositions, 1) }
}

fn rules() -> Vec<Rule> {
    let all = u64::MAX;
    let top = 1 << 63;
    vec![
        counted(1, 1, 1),
        counted(1, 64, 1),
        counted(16, 1, 1),
        counted(16, 63, 1023),
        counted(16, 64, 1024),
        counted(0, 1, 1),
        counted(17, 1, 1),
        counted(1, 0, 1),
        counted(1, 65, 1),
        counted(1, 1, 0),
        counted(1, 1, 1025),
        masked(64, &[all, 0]),
        masked(64, &[0, all]),
        masked(64, &[all - top, 1]),
        masked(64, &[all - 1, top]),
        masked(64, &[all - top, 0]),
        masked(64, &[all, top]),
        masked(63, &[all - top, top]),
        masked(63, &[all - top - 1, top]),
        masked(1, &[0, 0]),
        masked(1, &[1, 1]),
        masked(1, &[2, 0]),
        masked(2, &[2, 1]),
        lone(1, 64),
        lone(1, 65),
        lone(63, 126),
        lone(63, 127),
        lone(64, 127),
        lone(64, 128),
    ]
}

pub fn borders() -> Vec<(&'static str, Request)> {
    let codes = [0, 1, 2, 8, 9, 10, 62, 63, 64, 65, 126, 127, 128, 129, 190, 191, 192, 193, 254, 255];
    let to_rules = rules().into_iter().flat_map(|rule| [("read", files::of(&rule).read()), ("write", write::of(&rule))]);
    let to_central = codes.iter().map(|code| ("central", Request::central(vec![*code], 1, 4096)));
    to_rules.chain(to_central).collect()
}

pub fn loaded(script: &mut Script) {
    script.case = "border";
    for rule in rules() {
        script.load(files::of(&rule));
    }
}
