// The second program: the rules of document 01 once more, and the texts, reports and recordings of 02 (second/model.rs), in a program that
// shares no code with the crates.
//   second        answers the requests of PROTOCOL.md from standard input, one line each
//   second run    does what 01 says of the run program
// tests/compare holds the Rattle program `replay` to it, tests/watches the Rattle program `run`, and tests/store keeps its answers.
// `rustc --test` runs it on 01's worked values, on random watches and captures, on formulas with constants, on texts, on reports, and on
// recordings.

#[path = "second/model.rs"]
mod model;
#[path = "second/replay.rs"]
mod replay;
#[path = "second/run.rs"]
mod run;

#[cfg(test)]
#[path = "second/added.rs"]
mod added;
#[cfg(test)]
#[path = "second/captured.rs"]
mod captured;
#[cfg(test)]
#[path = "second/constants.rs"]
mod constants;
#[cfg(test)]
#[path = "second/folded.rs"]
mod folded;
#[cfg(test)]
#[allow(dead_code)] // the tests take small formulas from the generator's many
#[path = "generate/formulas.rs"]
mod formulas;
#[cfg(test)]
#[path = "generate/handed.rs"]
mod handed;
#[cfg(test)]
#[path = "second/invariants.rs"]
mod invariants;
#[cfg(test)]
#[allow(dead_code)]
#[path = "generate/lists.rs"]
mod lists;
#[cfg(test)]
#[path = "second/meaning.rs"]
mod meaning;
#[cfg(test)]
#[path = "second/mended.rs"]
mod mended;
#[cfg(test)]
#[path = "second/oracle.rs"]
mod oracle;
#[cfg(test)]
#[path = "second/printed.rs"]
mod printed;
#[cfg(test)]
#[allow(dead_code)]
#[path = "generate/random.rs"]
mod random;
#[cfg(test)]
#[path = "second/readings.rs"]
mod readings;
#[cfg(test)]
#[allow(dead_code)]
#[path = "generate/recordings.rs"]
mod recordings;
#[cfg(test)]
#[path = "second/reported.rs"]
mod reported;
#[cfg(test)]
#[allow(dead_code)]
#[path = "generate/rows.rs"]
mod rows;
#[cfg(test)]
#[path = "generate/spoilt_recordings.rs"]
mod spoilt_recordings;
#[cfg(test)]
#[path = "generate/spoilt_rows.rs"]
mod spoilt_rows;
#[cfg(test)]
#[path = "generate/spots.rs"]
mod spots;
#[cfg(test)]
#[path = "second/stops.rs"]
mod stops;
#[cfg(test)]
#[path = "second/stretched.rs"]
mod stretched;
#[cfg(test)]
#[allow(dead_code)]
#[path = "generate/texts.rs"]
mod texts;
#[cfg(test)]
#[path = "second/trying.rs"]
mod trying;
#[cfg(test)]
#[path = "second/typed.rs"]
mod typed;
#[cfg(test)]
#[path = "second/worked.rs"]
mod worked;
#[cfg(test)]
#[path = "second/worked_recordings.rs"]
mod worked_recordings;
#[cfg(test)]
#[path = "second/worked_reports.rs"]
mod worked_reports;
#[cfg(test)]
#[path = "second/worked_texts.rs"]
mod worked_texts;

use std::io::{Read, Write};

fn answer() {
    let words: Vec<String> = std::env::args().skip(1).collect();
    let program = match words.iter().map(String::as_str).collect::<Vec<&str>>()[..] {
        [] => replay::replay,
        ["run"] => run::run,
        _ => {
            eprintln!("usage: second [run]");
            std::process::exit(2);
        }
    };
    let mut input = Vec::new();
    std::io::stdin().read_to_end(&mut input).expect("standard input can be read");
    std::io::stdout().write_all(program(&input).as_bytes()).expect("standard output can be written");
}

// A formula may be thousands of levels deep, and every walk here calls itself once a level.
fn main() {
    let thread = std::thread::Builder::new().stack_size(256 << 20).spawn(answer);
    thread.expect("a thread can be started").join().expect("the answers end");
}
