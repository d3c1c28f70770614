// The cases on the kept state and on recordings, by kind, and how the kinds take turns. An episode makes as many requests as it needs.

use crate::files::{self, Handed};
use crate::lists::Listed;
use crate::model::state::Network;
use crate::random::Random;
use crate::recordings::Record;
use crate::rules::{self, Rule};
use crate::script::{Made, Script};
use crate::spoilt::SPOILS;
use crate::{adding, capture_stops, captures, closes, folded_rules, handed, mending, moments, patterns, reporting, watches};
use crate::{spoilt, spoilt_recordings, spoilt_rows};

type Episode = Box<dyn Fn(&mut Script, &mut Random, bool)>;

// Episodes of one kind, one after the other; one in so many is asked to be large. That number has no divisor in common with how many
// there are, so that each of them is asked in its time.
struct Kind {
    episodes: Vec<(&'static str, Episode)>,
    large_every: usize,
    turn: usize,
}

impl Kind {
    fn new(large_every: usize, episodes: Vec<(&'static str, Episode)>) -> Kind {
        Kind { episodes, large_every, turn: 0 }
    }

    fn play(&mut self, script: &mut Script, random: &mut Random) {
        let (case, episode) = &self.episodes[self.turn % self.episodes.len()];
        let large = self.turn % self.large_every == self.large_every - 1;
        script.case = case;
        episode(script, random, large);
        self.turn += 1;
    }
}

fn load(make: fn(&mut Random, bool) -> Handed) -> Episode {
    Box::new(move |script, random, large| {
        script.load(make(random, large));
    })
}

fn watch(pattern: fn(&mut Random, bool) -> Rule) -> Episode {
    Box::new(move |script, random, large| {
        let rule = pattern(random, large);
        watch_rule(script, random, &rule, large);
    })
}

fn watch_later(pattern: fn(&mut Random, bool) -> Rule) -> Episode {
    Box::new(move |script, random, large| {
        let rule = patterns::later(pattern(random, large));
        watch_rule(script, random, &rule, large);
    })
}

// A watch from its load on. A large one has many slots to step: it goes some way unseen.
fn watch_rule(script: &mut Script, random: &mut Random, rule: &Rule, large: bool) {
    if !script.load(files::of(rule)) {
        return;
    }
    let unseen = if large { random.below(200) } else { 0 };
    if let Some(network) = moments::of_rule(random, rule, unseen) {
        script.become_state(&network.bytes());
    }
    let requests = random.within(12, 40);
    watches::go_on(script, random, requests);
}

fn loads() -> Kind {
    let at_limit = |random: &mut Random, large: bool| {
        let limits = [patterns::node_limit, patterns::node_limit, patterns::nested_always, patterns::untils];
        let (limit, large) = (random.pick(&limits), large || random.percent(50));
        files::of(&limit(random, large))
    };
    let folding = |random: &mut Random, large: bool| {
        let rules = [folded_rules::any, folded_rules::any, folded_rules::around_any, folded_rules::decided];
        files::of(&random.pick(&rules)(random, large))
    };
    let folding_slots = |random: &mut Random, large: bool| {
        let rules = [folded_rules::fewer_slots, folded_rules::more_slots];
        files::of(&random.pick(&rules)(random, large))
    };
    let episodes = vec![
        ("accepted", load(|random, large| files::of(&rules::rule(random, large)))),
        ("folding", load(folding)),
        ("length", load(files::length)),
        ("slots", load(|random, _| files::of(&patterns::copies(random.within(62, 66))))),
        ("cut or extended", load(files::cut_or_extended)),
        ("version", load(files::version)),
        ("folding: limit", load(|random, large| files::of(&folded_rules::around_limit(random, large)))),
        ("nodes", load(at_limit)),
        ("range", load(files::range)),
        ("offset", load(files::offset)),
        ("slots and nodes", load(|random, large| files::of(&patterns::slots_and_nodes(random, large)))),
        ("oversized", load(files::oversized)),
        ("folding: slots", load(folding_slots)),
        ("masks", load(|random, large| files::of(&rules::bad_masks(random, large)))),
        ("nodes", load(at_limit)),
        ("formula", load(|random, large| files::of(&rules::bad_formula(random, large)))),
        ("far too large", load(|random, large| files::of(&patterns::far_too_large(random, large)))),
        ("crowded", load(|random, large| files::of(&patterns::crowded(random, large)))),
        ("folding: more nodes", load(|random, large| files::of(&folded_rules::more_nodes(random, large)))),
        ("several", load(files::several)),
        ("wrongly lent", load(files::wrongly_lent)),
        ("flipped", load(files::flipped)),
    ];
    Kind::new(7, episodes)
}

fn whole_watches() -> Kind {
    let episodes = vec![
        ("watch: small", watch(patterns::small)),
        ("watch: until", watch(patterns::until)),
        ("watch: small, later", watch_later(patterns::small)),
        ("watch: responses", watch(patterns::responses)),
        ("watch: folding, any", watch(folded_rules::any)),
        ("watch: small", watch(patterns::small)),
        ("watch: alternatives", watch(patterns::alternatives)),
        ("watch: untils", watch(patterns::untils)),
        ("watch: responses", watch(patterns::responses)),
        ("watch: chain", watch(patterns::chain)),
        ("watch: nested", watch(patterns::nested_always)),
        ("watch: constants", watch(patterns::constants)),
        ("watch: wide", watch(patterns::wide)),
        ("watch: folding, around", watch(folded_rules::around_any)),
    ];
    Kind::new(5, episodes)
}

fn spoilt_states() -> Kind {
    let episode = |spoil: spoilt::Spoil| -> Episode { Box::new(move |script, random, _| spoilt::spoilt(script, random, spoil)) };
    Kind::new(1, SPOILS.iter().map(|&(name, spoil)| (name, episode(spoil))).collect())
}

fn closes_at_limits() -> Kind {
    let episodes: Vec<(&'static str, Episode)> = vec![
        ("close: slots", Box::new(closes::slots)),
        ("close: last ticks", Box::new(closes::last_ticks)),
        ("close: nodes", Box::new(closes::nodes)),
        ("close: growing", Box::new(closes::growing)),
        ("close: handed", Box::new(closes::handed)),
        ("close: folding", Box::new(closes::folding)),
        ("close: slots", Box::new(closes::slots)),
        ("close: last ticks", Box::new(closes::last_ticks)),
    ];
    Kind::new(5, episodes)
}

// States that someone might hand over, valid or not.
fn strange_states() -> Kind {
    let handed: Episode = Box::new(|script, random, large| {
        let network = handed::handed(random, large);
        script.become_state(&network.bytes());
        let requests = random.within(6, 20);
        watches::go_on(script, random, requests);
    });
    let flipped: Episode = Box::new(|script, random, _| spoilt::flipped(script, random));
    let saved: Episode = Box::new(|script, random, large| {
        let rule = folded_rules::any(random, large);
        let calls = random.below(30);
        if let Some(network) = moments::saved(random, &rule, calls) {
            script.become_state(&network.bytes());
            let requests = random.within(6, 20);
            watches::go_on(script, random, requests);
        }
    });
    Kind::new(4, vec![("handed state", handed), ("flipped state", flipped), ("saved state", saved)])
}

fn captured(pattern: fn(&mut Random, bool) -> Rule) -> Episode {
    Box::new(move |script, random, large| {
        let rule = pattern(random, large);
        captures::of_rule(script, random, &rule);
    })
}

fn captured_state(make: fn(&mut Random, bool) -> Network) -> Episode {
    Box::new(move |script, random, large| {
        let network = make(random, large);
        captures::of_network(script, random, &network);
    })
}

fn runs_of_events() -> Kind {
    let saved: Episode = Box::new(|script, random, large| {
        let rule = folded_rules::any(random, large);
        let calls = random.below(30);
        if let Some(network) = moments::saved(random, &rule, calls) {
            captures::of_network(script, random, &network);
        }
    });
    let episodes: Vec<(&'static str, Episode)> = vec![
        ("capture: small", captured(patterns::small)),
        ("capture: verdict", Box::new(capture_stops::verdict)),
        ("capture: lone foreign proposition", Box::new(capture_stops::foreign)),
        ("capture: responses", captured(patterns::responses)),
        ("capture: last ticks", Box::new(capture_stops::last_ticks)),
        ("capture: handed state", captured_state(handed::between_ticks)),
        ("capture: slots", Box::new(capture_stops::slots)),
        ("capture: outside the masks", Box::new(captures::outside)),
        ("capture: until", captured(patterns::until)),
        ("capture: in a tick", captured_state(|random, _| moments::moment(random))),
        ("capture: nodes", Box::new(capture_stops::nodes)),
        ("capture: folding", captured(folded_rules::around_any)),
        ("capture: handed state in a tick", captured_state(handed::handed)),
        ("capture: verdict", Box::new(capture_stops::verdict)),
        ("capture: alternatives", captured(patterns::alternatives)),
        ("capture: saved state", saved),
        ("capture: wide", captured(patterns::wide)),
        ("capture: lone foreign proposition", Box::new(capture_stops::foreign)),
        ("capture: responses", captured(patterns::responses)),
        ("capture: nodes", Box::new(capture_stops::nodes)),
        ("capture: long", Box::new(captures::long)),
        ("capture: last ticks", Box::new(capture_stops::last_ticks)),
        ("capture: later", captured(|random, large| patterns::later(patterns::chain(random, large)))),
    ];
    Kind::new(5, episodes)
}

// Some lists of a kind, one after the other.
fn report(make: fn(&mut Random, bool) -> Listed) -> Episode {
    Box::new(move |script, random, large| {
        for _ in 0..random.within(1, 4) {
            script.report(make(random, large));
        }
        script.leave_report();
    })
}

// One alone, since a long list takes its time.
fn long_report(make: fn(&mut Random, bool) -> Listed) -> Episode {
    Box::new(move |script, random, large| {
        script.report(make(random, large));
        script.leave_report();
    })
}

fn reports() -> Kind {
    let episodes = vec![
        ("report: few rules", report(reporting::few)),
        ("report: bad run", report(reporting::bad_between)),
        ("report: as many runs as there may be", long_report(reporting::most)),
        ("report: many rules", report(reporting::many)),
        ("report: broken length", report(reporting::broken)),
        ("report: bad first run", report(reporting::bad_first)),
        ("report: one run", report(reporting::one)),
        ("report: too many runs", long_report(reporting::too_many)),
        ("report: repeated", report(reporting::repeated)),
        ("report: several bad runs", report(reporting::several_bad)),
        ("report: wrong lent", report(reporting::wrong_lent)),
        ("report: shifted", report(reporting::shifted)),
        ("report: bad last run", report(reporting::bad_last)),
        ("report: no runs", report(reporting::none)),
        ("report: any numbers", report(reporting::numbers)),
        ("report: bad run of many", long_report(reporting::most_bad)),
    ];
    Kind::new(5, episodes)
}

fn add(episode: fn(&mut Script, &mut Random, bool)) -> Episode {
    Box::new(move |script, random, large| {
        episode(script, random, large);
        script.leave_report();
    })
}

fn add_spoilt(spoil: spoilt_rows::Spoil) -> Episode {
    Box::new(move |script, random, _| {
        adding::spoilt(script, random, spoil);
        script.leave_report();
    })
}

fn adds() -> Kind {
    let mut episodes = vec![
        ("add: nights", add(adding::nights)),
        ("add: same rules", add(adding::same_rules)),
        ("add: as many runs as there may be", add(adding::most)),
        ("add: too many runs", add(adding::too_many)),
        ("add: false in one", add(adding::false_in_one)),
        ("add: wrong lengths", add(adding::lengths)),
        ("add: nothing", add(adding::nothing)),
        ("add: growing", add(adding::growing)),
        ("add: far too many runs", add(adding::far_too_many)),
        ("add: any numbers", add(adding::any_numbers)),
        ("add: too many runs and spoilt", add(adding::too_many_and_spoilt)),
        ("add: to a state", add(adding::to_state)),
    ];
    episodes.extend(spoilt_rows::SPOILS.iter().map(|&(name, spoil)| (name, add_spoilt(spoil))));
    Kind::new(5, episodes)
}

fn record(make: fn(&mut Random, bool) -> Vec<Record>) -> Episode {
    Box::new(move |script, random, large| {
        let list = make(random, large);
        mending::record(script, random, list);
    })
}

fn record_spoilt(spoil: spoilt_recordings::Spoil) -> Episode {
    Box::new(move |script, random, _| mending::spoilt(script, random, spoil))
}

fn recordings() -> Kind {
    let mut episodes = vec![
        ("recording: doubled and lost", record(mending::doubled_and_lost)),
        ("recording: clash between", record(mending::clash_between)),
        ("recording: without a hole", record(mending::without_hole)),
        ("recording: steps", record(mending::steps)),
        ("recording: few records", record(mending::few)),
        ("recording: clash at the first", record(mending::clash_first)),
        ("recording: doubled", record(mending::doubled)),
        ("recording: doubled at a break", record(mending::doubled_at_break)),
        ("recording: any numbers", record(mending::any_numbers)),
        ("recording: tripled", record(mending::tripled)),
        ("recording: clash behind a double or a break", record(mending::clash_behind)),
        ("recording: captured", Box::new(mending::captured)),
        ("recording: lost", record(mending::lost)),
        ("recording: several spoils", Box::new(mending::several)),
        ("recording: past the last counter", record(mending::wrapped)),
        ("recording: clash at the last", record(mending::clash_last)),
        ("recording: one byte of the counter", record(mending::one_byte)),
        ("recording: records again", record(mending::returning)),
        ("recording: several clashes", record(mending::several_clashes)),
    ];
    episodes.extend(spoilt_recordings::SPOILS.iter().map(|&(name, spoil)| (name, record_spoilt(spoil))));
    Kind::new(11, episodes)
}

// The kinds by their places in Episodes.
const LOAD: usize = 0;
const WATCH: usize = 1;
const SPOILT: usize = 2;
const CLOSE: usize = 3;
const STRANGE: usize = 4;
const CAPTURE: usize = 5;
const REPORT: usize = 6;
const ADD: usize = 7;
const RECORDING: usize = 8;

// How they take turns, with runs of events, reports and recordings between them: a load makes one request, a watch many.
const TURNS: &[usize] = &[
    SPOILT, LOAD, SPOILT, LOAD, CLOSE, SPOILT, LOAD, SPOILT, LOAD, WATCH, LOAD, SPOILT, LOAD, SPOILT, LOAD, CLOSE, SPOILT, LOAD, SPOILT,
    LOAD, STRANGE, LOAD, SPOILT, LOAD, SPOILT, LOAD, CLOSE, LOAD, SPOILT, LOAD, SPOILT, LOAD, WATCH, LOAD, SPOILT, LOAD, CLOSE, LOAD,
    SPOILT, LOAD,
];

pub struct Episodes {
    kinds: [Kind; 9],
    turn: usize,
}

impl Episodes {
    pub fn new() -> Episodes {
        let kinds = [
            loads(),
            whole_watches(),
            spoilt_states(),
            closes_at_limits(),
            strange_states(),
            runs_of_events(),
            reports(),
            adds(),
            recordings(),
        ];
        Episodes { kinds, turn: 0 }
    }

    // The next request; where none is waiting, the next episode makes its own.
    pub fn next(&mut self, script: &mut Script, random: &mut Random) -> Made {
        loop {
            if let Some(made) = script.take() {
                return made;
            }
            let round = self.turn / 7;
            let turn = |which: usize| TURNS[which % TURNS.len()];
            let kind = [turn(2 * round), CAPTURE, REPORT, turn(2 * round + 1), CAPTURE, ADD, RECORDING][self.turn % 7];
            self.kinds[kind].play(script, random);
            self.turn += 1;
        }
    }
}
