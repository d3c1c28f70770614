// The generator: random and damaged requests of PROTOCOL.md for one seed, the same on every machine.
//   generate SEED COUNT        writes the stream of COUNT requests
//   generate SEED COUNT list   writes a line for each of them instead: its call, its offset in the stream, its length, its case
//   generate SEED COUNT inputs ROOM   writes COUNT inputs of the run program into files ROOM/1, ROOM/2, .. and a line with the case of each
// The worked values, named texts, examples of captures, reports and recordings, the rules at the borders and the smallest formulas with
// constants come first; then the cases below, for calls that keep nothing, and the episodes on the kept state and on recordings take
// turns, so that a stream of some hundreds more meets each of them often.

#[path = "generate/adding.rs"]
mod adding;
#[path = "generate/borders.rs"]
mod borders;
#[path = "generate/capture_stops.rs"]
mod capture_stops;
#[path = "generate/captures.rs"]
mod captures;
#[path = "generate/central.rs"]
mod central;
#[path = "generate/closes.rs"]
mod closes;
#[path = "generate/constants.rs"]
mod constants;
#[path = "generate/episodes.rs"]
mod episodes;
#[path = "generate/events.rs"]
mod events;
#[path = "generate/files.rs"]
mod files;
#[path = "generate/folded_rules.rs"]
mod folded_rules;
#[path = "generate/folding.rs"]
mod folding;
#[path = "generate/formulas.rs"]
mod formulas;
#[path = "generate/handed.rs"]
mod handed;
#[path = "generate/inputs.rs"]
mod inputs;
#[path = "generate/lists.rs"]
mod lists;
#[path = "generate/mending.rs"]
mod mending;
#[allow(dead_code)] // the generator needs the calls on what is kept and the check
#[path = "second/model.rs"]
mod model;
#[path = "generate/moments.rs"]
mod moments;
#[path = "generate/parsing.rs"]
mod parsing;
#[path = "generate/patterns.rs"]
mod patterns;
#[path = "generate/printing.rs"]
mod printing;
#[path = "generate/random.rs"]
mod random;
#[path = "generate/recordings.rs"]
mod recordings;
#[path = "generate/reporting.rs"]
mod reporting;
#[path = "generate/request.rs"]
mod request;
#[path = "generate/rows.rs"]
mod rows;
#[path = "generate/rules.rs"]
mod rules;
#[path = "generate/script.rs"]
mod script;
#[path = "generate/spoilt.rs"]
mod spoilt;
#[path = "generate/spoilt_formulas.rs"]
mod spoilt_formulas;
#[path = "generate/spoilt_recordings.rs"]
mod spoilt_recordings;
#[path = "generate/spoilt_records.rs"]
mod spoilt_records;
#[path = "generate/spoilt_rows.rs"]
mod spoilt_rows;
#[path = "generate/spots.rs"]
mod spots;
#[path = "generate/texts.rs"]
mod texts;
#[path = "generate/watches.rs"]
mod watches;
#[path = "generate/worked.rs"]
mod worked;
#[path = "generate/worked_captures.rs"]
mod worked_captures;
#[path = "generate/worked_recordings.rs"]
mod worked_recordings;
#[path = "generate/worked_reports.rs"]
mod worked_reports;
#[path = "generate/worked_texts.rs"]
mod worked_texts;
#[path = "generate/worked_watches.rs"]
mod worked_watches;
#[path = "generate/write.rs"]
mod write;

use episodes::Episodes;
use random::Random;
use request::Request;
use script::{Made, Script};
use std::io::Write;

// Makes a request of its kind; large ones, at the real limits, are asked for now and then.
type Case = fn(&mut Random, bool) -> Request;

const CASES: &[(&str, &str, Case)] = &[
    ("central", "small", central::small),
    ("parse", "typed", parsing::any),
    ("read", "accepted", |random, large| files::of(&rules::rule(random, large)).read()),
    ("write", "accepted", |random, large| write::of(&rules::rule(random, large))),
    ("print", "any", printing::any),
    ("central", "temporal", central::temporal),
    ("central", "plain", central::plain),
    ("parse", "damaged", parsing::damaged_text),
    ("read", "smallest", |random, large| files::of(&rules::smallest(random, large)).read()),
    ("central", "left leaning", central::left_chain_of),
    ("central", "right leaning", central::right_chain_of),
    ("print", "small", printing::small),
    ("read", "length", |random, large| files::length(random, large).read()),
    ("central", "constants", central::constants),
    ("parse", "bare", parsing::bare),
    ("central", "member", central::member),
    ("read", "cut or extended", |random, large| files::cut_or_extended(random, large).read()),
    ("central", "no member", central::no_member),
    ("parse", "cut", parsing::cut),
    ("central", "members", central::members),
    ("central", "folding: few constants", folding::few),
    ("print", "chain", printing::chain),
    ("read", "version", |random, large| files::version(random, large).read()),
    ("central", "negations", central::negations),
    ("central", "unfold limit", central::unfold_limit),
    ("parse", "spaced", parsing::spaced),
    ("central", "folding: many constants", folding::many),
    ("read", "range", |random, large| files::range(random, large).read()),
    ("central", "nested limit", central::nested_limit),
    ("print", "damaged", printing::damaged),
    ("central", "far too large", central::far_too_large),
    ("central", "folding: around a formula", folding::around),
    ("parse", "too many nodes", parsing::too_many_nodes),
    ("read", "offset", |random, large| files::offset(random, large).read()),
    ("central", "wrong size", central::wrong_size),
    ("central", "wrong lent", central::wrong_lent),
    ("parse", "brackets", parsing::brackets),
    ("central", "folding: around a limit", folding::around_limit),
    ("read", "oversized", |random, large| files::oversized(random, large).read()),
    ("central", "damaged", central::damaged),
    ("print", "longest", printing::longest),
    ("central", "damaged and large", central::damaged_and_large),
    ("central", "folding: decided", folding::decided),
    ("parse", "any signs", parsing::signs),
    ("read", "masks", |random, large| files::of(&rules::bad_masks(random, large)).read()),
    ("central", "any bytes", central::any_bytes),
    ("parse", "bracketed", parsing::bracketed),
    ("central", "folding: too large beside", folding::too_large_beside),
    ("write", "smallest", |random, large| write::of(&rules::smallest(random, large))),
    ("read", "formula", |random, large| files::of(&rules::bad_formula(random, large)).read()),
    ("write", "length", write::length),
    ("print", "wrong size", printing::wrong_size),
    ("write", "range", write::range),
    ("central", "folding: true until", folding::true_until),
    ("parse", "any bytes", parsing::bytes),
    ("read", "several", |random, large| files::several(random, large).read()),
    ("write", "masks", |random, large| write::of(&rules::bad_masks(random, large))),
    ("parse", "damaged and long", parsing::damaged_and_long),
    ("write", "formula", |random, large| write::of(&rules::bad_formula(random, large))),
    ("central", "folding: damaged", folding::damaged),
    ("print", "wrong lent", printing::wrong_lent),
    ("read", "wrongly lent", |random, large| files::wrongly_lent(random, large).read()),
    ("parse", "wrong lent", parsing::wrong_lent),
    ("print", "any bytes", printing::bytes),
    ("read", "flipped", |random, large| files::flipped(random, large).read()),
    ("write", "several", write::several),
    ("parse", "twice", parsing::twice),
];

// One round of the cases in so many asks for large requests.
const LARGE_EVERY: usize = 6;

// What opens every stream.
fn opening(script: &mut Script) -> Vec<Made> {
    let worked = worked::worked().into_iter().map(|(call, request)| (call, "worked value", request));
    let texts = worked_texts::worked().into_iter().map(|(call, request)| (call, "worked value", request));
    let borders = borders::borders().into_iter().map(|(call, request)| (call, "border", request));
    let folded = folding::each_small().into_iter().map(|request| ("central", "folding: small", request));
    worked_watches::watched(script);
    worked_captures::captured(script);
    worked_reports::reported(script);
    worked_recordings::recorded(script);
    borders::loaded(script);
    folded_rules::loaded(script);
    worked.chain(texts).chain(borders).chain(folded).chain(std::iter::from_fn(|| script.take())).collect()
}

// Hands on the requests of a stream, one after the other. Behind the opening four of nine are cases, and the others are of episodes.
fn stream(seed: u64, count: usize, mut emit: impl FnMut(Made)) {
    let mut script = Script::new();
    let opening = opening(&mut script);
    let left = count.saturating_sub(opening.len());
    opening.into_iter().take(count).for_each(&mut emit);
    let (mut random, mut episodes_random) = (Random::new(seed), Random::new(!seed));
    let mut episodes = Episodes::new();
    let mut cases = 0;
    for i in 0..left {
        if i % 9 % 2 == 1 {
            let (call, case, make) = CASES[cases % CASES.len()];
            let large = cases / CASES.len() % LARGE_EVERY == LARGE_EVERY - 1;
            emit((call, case, make(&mut random, large)));
            cases += 1;
        } else {
            emit(episodes.next(&mut script, &mut episodes_random));
        }
    }
}

fn write_stream(seed: u64, count: usize, list: bool) {
    let mut output = std::io::BufWriter::new(std::io::stdout().lock());
    let mut offset = 0;
    stream(seed, count, |(call, case, request)| {
        let bytes = request.bytes();
        let done = if list { writeln!(output, "{call} {offset} {} {case}", bytes.len()) } else { output.write_all(&bytes) };
        done.expect("standard output can be written");
        offset += bytes.len();
    });
}

fn write_inputs(seed: u64, count: usize, room: &str) {
    let mut random = Random::new(seed);
    for i in 0..count {
        let (case, make) = inputs::CASES[i % inputs::CASES.len()];
        std::fs::write(format!("{room}/{}", i + 1), make(&mut random)).expect("an input can be written");
        println!("{case}");
    }
}

fn generate() {
    let words: Vec<String> = std::env::args().skip(1).collect();
    let number = |i: usize| words.get(i).and_then(|word| word.parse::<u64>().ok());
    let rest: Vec<&str> = words.iter().skip(2).map(String::as_str).collect();
    match (number(0), number(1), &rest[..]) {
        (Some(seed), Some(count), []) => write_stream(seed, count as usize, false),
        (Some(seed), Some(count), ["list"]) => write_stream(seed, count as usize, true),
        (Some(seed), Some(count), ["inputs", room]) => write_inputs(seed, count as usize, room),
        _ => {
            eprintln!("usage: generate SEED COUNT [list | inputs ROOM]");
            std::process::exit(2);
        }
    }
}

// The model calls itself once for each level of a formula, and there may be thousands.
fn main() {
    let thread = std::thread::Builder::new().stack_size(256 << 20).spawn(generate);
    thread.expect("a thread can be started").join().expect("the stream ends");
}
