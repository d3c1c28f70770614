// The nodes of a formula by their places, and what each stands inside.

const NEXT: u8 = 5;

// A node of a formula.
#[derive(Clone, Copy)]
pub struct Spot {
    pub place: usize,
    pub byte: u8,
    pub inside_next: bool,
    pub inside_temporal: bool,
}

impl Spot {
    pub fn is_leaf(&self) -> bool {
        !(2..=8).contains(&self.byte)
    }

    pub fn is_place_holder(&self) -> bool {
        (128..192).contains(&self.byte)
    }

    pub fn is_outside(&self) -> bool {
        !self.inside_next && !self.inside_temporal
    }
}

// The spots of a formula, in their order.
pub fn spots(formula: &[u8]) -> Vec<Spot> {
    fn walk(bytes: &[u8], place: usize, (inside_next, inside_temporal): (bool, bool), spots: &mut Vec<Spot>) -> usize {
        let byte = bytes[place];
        spots.push(Spot { place, byte, inside_next, inside_temporal });
        let below = (inside_next || byte == NEXT, inside_temporal || (6..=8).contains(&byte));
        let operands = match byte {
            2 | 5 | 7 | 8 => 1,
            3 | 4 | 6 => 2,
            _ => 0,
        };
        (0..operands).fold(place + 1, |place, _| walk(bytes, place, below, spots))
    }
    let mut spots = Vec::new();
    walk(formula, 0, (false, false), &mut spots);
    spots
}
