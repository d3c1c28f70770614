// Folding: a formula without the constants that decide a node or say nothing in it, everywhere, also below next and the temporal
// operators. Load folds a rule before it is laid out, central a formula before it is progressed; nothing else folds.

use super::formula::Formula::{self, *};
use super::formula::{always, and, eventually, next, not, or, until};

pub fn fold(f: &Formula) -> Formula {
    match f {
        False | True | Proposition(_) | PlaceHolder(_) => f.clone(),
        Not(f) => match fold(f) {
            False => True,
            True => False,
            g => not(g),
        },
        Next(f) => constant_or(fold(f), next),
        Eventually(f) => constant_or(fold(f), eventually),
        Always(f) => constant_or(fold(f), always),
        And(f, g) => fold_and(fold(f), fold(g)),
        Or(f, g) => fold_or(fold(f), fold(g)),
        Until(f, g) => fold_until(fold(f), fold(g)),
    }
}

// A constant is met at every tick or at none, so next, eventually and always of one are that one.
fn constant_or(f: Formula, make: fn(Formula) -> Formula) -> Formula {
    if f.is_constant() {
        f
    } else {
        make(f)
    }
}

fn fold_and(l: Formula, r: Formula) -> Formula {
    if l == False || r == False {
        False
    } else if l == True {
        r
    } else if r == True {
        l
    } else {
        and(l, r)
    }
}

fn fold_or(l: Formula, r: Formula) -> Formula {
    if l == True || r == True {
        True
    } else if l == False {
        r
    } else if r == False {
        l
    } else {
        or(l, r)
    }
}

// True on the left stays.
fn fold_until(l: Formula, r: Formula) -> Formula {
    if r.is_constant() || l == False {
        r
    } else {
        until(l, r)
    }
}
