// Progression: unfold, then resolve under an event.

use super::formula::Formula::{self, *};
use super::formula::{and, constant, next, not, or};

pub fn unfold(f: &Formula) -> Formula {
    match f {
        Until(left, right) => or(unfold(right), and(unfold(left), next(f.clone()))),
        Eventually(g) => or(unfold(g), next(f.clone())),
        Always(g) => and(unfold(g), next(f.clone())),
        Not(g) => not(unfold(g)),
        And(g, h) => and(unfold(g), unfold(h)),
        Or(g, h) => or(unfold(g), unfold(h)),
        False | True | Next(_) | Proposition(_) | PlaceHolder(_) => f.clone(),
    }
}

// The event is a board's sample where the formula is a slot's; place holders that are left stay.
pub fn resolve(f: &Formula, event: u64) -> Formula {
    match f {
        False | True | PlaceHolder(_) => f.clone(),
        Proposition(i) => constant(event >> i & 1 == 1),
        Next(f) => (**f).clone(),
        Not(f) => match resolve(f, event) {
            False => True,
            True => False,
            g => not(g),
        },
        And(f, g) => resolve_and(resolve(f, event), resolve(g, event)),
        Or(f, g) => resolve_or(resolve(f, event), resolve(g, event)),
        Until(..) | Eventually(_) | Always(_) => unreachable!("an unfolded formula has these below next alone"),
    }
}

fn resolve_and(l: Formula, r: Formula) -> Formula {
    if l == False || r == False {
        False
    } else if l == True {
        r
    } else if r == True {
        l
    } else if member_of_and(&l, &r) {
        r
    } else {
        and(l, r)
    }
}

fn resolve_or(l: Formula, r: Formula) -> Formula {
    if l == True || r == True {
        True
    } else if l == False {
        r
    } else if r == False {
        l
    } else if member_of_or(&l, &r) {
        r
    } else {
        or(l, r)
    }
}

fn member_of_and(l: &Formula, r: &Formula) -> bool {
    l == r || matches!(r, And(left, right) if *l == **left || member_of_and(l, right))
}

fn member_of_or(l: &Formula, r: &Formula) -> bool {
    l == r || matches!(r, Or(left, right) if *l == **left || member_of_or(l, right))
}
