// A refusal is its number in 01's table, and in 02's. Lent outputs are written by accepted calls alone.

#[derive(Clone, Copy, Debug, PartialEq)]
pub enum Refusal {
    Length = 1,
    Version = 2,
    Range = 3,
    Offset = 4,
    Masks = 5,
    Formula = 6,
    Slots = 7,
    Nodes = 8,
    State = 9,
    Finished = 10,
    NoSuch = 11,
    Bits = 12,
    Already = 13,
    NotReady = 14,
    Ticks = 15,
    Text = 16,
    Run = 19,
    Clash = 20,
}

// The refusal where the condition fails.
pub fn demand(holds: bool, refusal: Refusal) -> Result<(), Refusal> {
    if holds {
        Ok(())
    } else {
        Err(refusal)
    }
}
