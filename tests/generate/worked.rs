// The worked values of document 01 for the calls without a state. They open every stream.

use crate::files;
use crate::formulas::nested;
use crate::request::Request;
use crate::rules::Rule;
use crate::write;

pub fn worked() -> Vec<(&'static str, Request)> {
    let central = |formula: &[u8], event: u64| ("central", Request::central(formula.to_vec(), event, 4096));
    let rule = Rule { masks: vec![1, 2], propositions: 2, formula: vec![6, 64, 65] };
    vec![
        central(&[6, 64, 65], 1),
        central(&[6, 64, 65], 2),
        central(&[6, 64, 65], 0),
        central(&[8, 7, 64], 0),
        central(&[3, 7, 64, 8, 7, 64], 0),
        central(&[3, 7, 64, 8, 7, 64], 1),
        central(&[5, 1], 0),
        central(&[5, 2, 2, 64], 0),
        central(&[8, 1], 0),
        central(&[6, 1, 64], 0),
        central(&[8, 3, 64, 1], 1),
        central(&[4, 7, 64, 8, 2, 64], 0),
        central(&[4, 1, 64], 0),
        central(&[4, 5, 64, 4, 5, 64, 5, 65], 0),
        central(&nested(8, 87), 1),
        central(&nested(8, 88), 1),
        central(&[vec![8; 88], vec![1]].concat(), 1),
        ("read", files::of(&rule).read()),
        ("write", write::of(&rule)),
    ]
}
