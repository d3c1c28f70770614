// One request of PROTOCOL.md and its bytes.

pub struct Request {
    call: u8,
    a: usize,
    b: usize,
    c: usize,
    v: u64,
    payload: Vec<u8>,
}

impl Request {
    pub fn read(file: Vec<u8>, masks_lent: usize, formula_lent: usize) -> Request {
        Request { call: 1, a: file.len(), b: masks_lent, c: formula_lent, v: 0, payload: file }
    }

    pub fn write(masks: &[u64], propositions: u64, formula: &[u8], file_lent: usize) -> Request {
        let mut payload: Vec<u8> = masks.iter().flat_map(|mask| mask.to_le_bytes()).collect();
        payload.extend(formula);
        Request { call: 2, a: masks.len(), b: formula.len(), c: file_lent, v: propositions, payload }
    }

    pub fn central(formula: Vec<u8>, event: u64, output_lent: usize) -> Request {
        Request { call: 3, a: formula.len(), b: 0, c: output_lent, v: event, payload: formula }
    }

    pub fn load(file: Vec<u8>, state_lent: usize) -> Request {
        Request { call: 4, a: file.len(), b: 0, c: state_lent, v: 0, payload: file }
    }

    pub fn sample(state_lent: usize, board: u64, bits: u64) -> Request {
        Request { call: 5, a: 0, b: state_lent, c: 0, v: bits, payload: board.to_le_bytes().to_vec() }
    }

    pub fn step(state_lent: usize, slot: u64) -> Request {
        Request { call: 6, a: 0, b: state_lent, c: 0, v: slot, payload: Vec::new() }
    }

    pub fn close(state_lent: usize, second_lent: usize) -> Request {
        Request { call: 7, a: 0, b: state_lent, c: second_lent, v: 0, payload: Vec::new() }
    }

    pub fn ask(state_lent: usize) -> Request {
        Request { call: 8, a: 0, b: state_lent, c: 0, v: 0, payload: Vec::new() }
    }

    pub fn poke(offset: usize, bytes: &[u8]) -> Request {
        Request { call: 9, a: bytes.len(), b: offset, c: 0, v: 0, payload: bytes.to_vec() }
    }

    pub fn capture(state_lent: usize, second_lent: usize, events: &[u64]) -> Request {
        let payload = events.iter().flat_map(|event| event.to_le_bytes()).collect();
        Request { call: 10, a: events.len(), b: state_lent, c: second_lent, v: 0, payload }
    }

    pub fn parse(text: Vec<u8>, formula_lent: usize) -> Request {
        Request { call: 11, a: text.len(), b: 0, c: formula_lent, v: 0, payload: text }
    }

    pub fn print(formula: Vec<u8>, text_lent: usize) -> Request {
        Request { call: 12, a: formula.len(), b: 0, c: text_lent, v: 0, payload: formula }
    }

    pub fn report(runs: Vec<u8>, repeats: usize, report_lent: usize) -> Request {
        Request { call: 13, a: runs.len(), b: repeats, c: report_lent, v: 0, payload: runs }
    }

    pub fn add(total_lent: usize, night: Vec<u8>) -> Request {
        Request { call: 14, a: night.len(), b: total_lent, c: 0, v: 0, payload: night }
    }

    pub fn mend(recording: Vec<u8>, mended_lent: usize, marks_lent: usize) -> Request {
        Request { call: 15, a: recording.len(), b: mended_lent, c: marks_lent, v: 0, payload: recording }
    }

    pub fn stretch(recording: Vec<u8>, events_lent: usize) -> Request {
        Request { call: 16, a: recording.len(), b: 0, c: events_lent, v: 0, payload: recording }
    }

    pub fn bytes(&self) -> Vec<u8> {
        let mut bytes = vec![self.call, 0, 0, 0];
        for number in [self.a, self.b, self.c] {
            bytes.extend((number as u32).to_le_bytes());
        }
        bytes.extend(self.v.to_le_bytes());
        bytes.extend(&self.payload);
        bytes
    }
}
