// Splitting: how unfolded formulas are laid out over the boards, at load and at close.

use super::formula::Formula::{self, *};
use super::formula::{and, not, or};
use super::progression::unfold;

// A laid slot. Its place holders are numbers of other laid slots.
#[derive(Clone)]
pub struct Laid {
    pub board: usize,
    pub formula: Formula,
}

// One count for each of the sixteen boards.
#[derive(Clone, Copy)]
struct Scores([u64; 16]);

impl Scores {
    const NONE: Scores = Scores([0; 16]);

    fn plus(mut self, other: Scores) -> Scores {
        for (count, more) in self.0.iter_mut().zip(other.0) {
            *count += more;
        }
        self
    }

    // Counts each occurrence of a board's propositions, those under next included.
    fn count(&mut self, f: &Formula, masks: &[u64]) {
        if let Proposition(i) = f {
            let board = masks.iter().position(|mask| mask >> i & 1 == 1).expect("masks cover every proposition");
            self.0[board] += 1;
        }
        f.operands().for_each(|operand| self.count(operand, masks));
    }

    // The board with the highest score, the lowest on a tie; none where all scores are 0.
    fn choice(&self) -> Option<usize> {
        let highest = *self.0.iter().max().expect("there are sixteen");
        self.0.iter().position(|&count| count == highest).filter(|_| highest > 0)
    }
}

// An unfolded formula in the parts that laying out looks at, each with its scores.
struct Part {
    scores: Scores,
    shape: Shape,
}

enum Shape {
    Not(Box<Part>),
    And(Box<Part>, Box<Part>),
    Or(Box<Part>, Box<Part>),
    Whole(Formula), // a constant, a proposition, a place holder, or a next with all below it
}

fn part_of(f: &Formula, masks: &[u64]) -> Part {
    let two = |make: fn(Box<Part>, Box<Part>) -> Shape, l: &Formula, r: &Formula| {
        let (l, r) = (part_of(l, masks), part_of(r, masks));
        Part { scores: l.scores.plus(r.scores), shape: make(Box::new(l), Box::new(r)) }
    };
    match f {
        Not(f) => {
            let part = part_of(f, masks);
            Part { scores: part.scores, shape: Shape::Not(Box::new(part)) }
        }
        And(l, r) => two(Shape::And, l, r),
        Or(l, r) => two(Shape::Or, l, r),
        False | True | Next(_) | Proposition(_) | PlaceHolder(_) => {
            let mut scores = Scores::NONE;
            scores.count(f, masks);
            Part { scores, shape: Shape::Whole(f.clone()) }
        }
        Until(..) | Eventually(_) | Always(_) => unreachable!("an unfolded formula has these below next alone"),
    }
}

// A layout in the making: the old network's slots, to be laid where their place holders are met, and the new ones so far.
struct Layout<'a> {
    masks: &'a [u64],
    held: &'a [Laid],
    laid: Vec<Laid>,
}

impl Layout<'_> {
    // Lays a slot and all below it, and answers its number.
    fn lay(&mut self, board: usize, part: Part) -> usize {
        let number = self.laid.len();
        self.laid.push(Laid { board, formula: False }); // so that the slots below get the numbers after this one
        self.laid[number].formula = self.cut(part, board);
        number
    }

    fn lay_held(&mut self, number: usize) -> usize {
        let Laid { board, formula } = &self.held[number];
        self.lay(*board, part_of(&unfold(formula), self.masks))
    }

    // What stays of a part whose top stays on this board.
    fn cut(&mut self, part: Part, board: usize) -> Formula {
        match part.shape {
            Shape::Not(f) => not(self.look(*f, board)),
            Shape::And(l, r) => {
                let left = self.look(*l, board);
                and(left, self.look(*r, board))
            }
            Shape::Or(l, r) => {
                let left = self.look(*l, board);
                or(left, self.look(*r, board))
            }
            Shape::Whole(PlaceHolder(number)) => PlaceHolder(self.lay_held(number)),
            Shape::Whole(f) => f,
        }
    }

    // Looks at an operand: it stays on this board or becomes a slot on the board of its choice.
    fn look(&mut self, part: Part, board: usize) -> Formula {
        match part.scores.choice() {
            Some(other) if other != board => PlaceHolder(self.lay(other, part)),
            _ => self.cut(part, board),
        }
    }
}

// The layout of a rule: the unfolded rule as slot 0 on its chosen board.
pub fn lay_rule(rule: &Formula, masks: &[u64]) -> Vec<Laid> {
    let part = part_of(&unfold(rule), masks);
    let mut layout = Layout { masks, held: &[], laid: Vec::new() };
    layout.lay(part.scores.choice().unwrap_or(0), part);
    layout.laid
}

// The layout of a network at its close: the root and the slots reached from it, each unfolded, on the boards they had.
pub fn lay_again(slots: &[Laid], masks: &[u64]) -> Vec<Laid> {
    let mut layout = Layout { masks, held: slots, laid: Vec::new() };
    layout.lay_held(0);
    layout.laid
}
