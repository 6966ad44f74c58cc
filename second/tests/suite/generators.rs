//! The generators: settled by their seeds, and a good mix.

use std::collections::BTreeMap;

use second::examine::{examine, tokens};
use second::generate::guidelines::guidelines;
use second::generate::lines::lines;
use second::generate::scripts::scripts;
use second::generate::texts::texts;
use second::given::Given;
use second::replay::answers;
use second::script::{calls, Call};
use second::sheet::answer;

/// How many of the answers begin with each word, refusals by number.
fn spread(answers: impl Iterator<Item = String>) -> BTreeMap<String, usize> {
    let mut spread = BTreeMap::new();
    for answer in answers {
        let words: Vec<&str> = answer.split(' ').collect();
        let kind = match words[..] {
            ["refused", number, ..] => format!("refused {number}"),
            _ => words[0].to_string(),
        };
        *spread.entry(kind).or_insert(0) += 1;
    }
    spread
}

fn count(spread: &BTreeMap<String, usize>, kind: &str) -> usize {
    spread.get(kind).copied().unwrap_or(0)
}

#[test]
fn the_seed_settles_everything() {
    assert_eq!(lines(5, 200).collect::<Vec<_>>(), lines(5, 200).collect::<Vec<_>>());
    assert_eq!(guidelines(5, 50).collect::<Vec<_>>(), guidelines(5, 50).collect::<Vec<_>>());
    assert_eq!(texts(5, 200).collect::<Vec<_>>(), texts(5, 200).collect::<Vec<_>>());
    assert_eq!(scripts(5, 50).collect::<Vec<_>>(), scripts(5, 50).collect::<Vec<_>>());
    assert_eq!(scripts(5, 60).take(50).collect::<Vec<_>>(), scripts(5, 50).collect::<Vec<_>>());
    assert_ne!(lines(5, 200).collect::<Vec<_>>(), lines(6, 200).collect::<Vec<_>>());
    let more: Vec<Vec<u8>> = lines(5, 300).take(200).collect();
    assert_eq!(more, lines(5, 200).collect::<Vec<_>>());
}

#[test]
fn as_many_come_as_are_asked_for() {
    for seed in 0..4 {
        assert_eq!(lines(seed, 4_000).count(), 4_000);
        assert_eq!(guidelines(seed, 2_000).count(), 2_000);
        assert_eq!(texts(seed, 4_000).count(), 4_000);
    }
}

#[test]
fn lines_are_a_mix() {
    let all: Vec<Vec<u8>> = lines(1, 1_500).collect();
    assert!(all.iter().all(|line| !line.contains(&b'\n')));
    let spread = spread(all.iter().filter(|line| line.len() < 1_000).map(|line| answer(line)));
    for number in [1, 2, 3, 5, 6, 10] {
        assert!(count(&spread, &format!("refused {number}")) > 0, "refusal {number} is there");
    }
    let types = [
        "text", "integer", "real", "setof_text", "setof_integer", "setof_real", "truth_value",
        "setof_anything",
    ];
    let accepted: usize = types.iter().map(|name| count(&spread, name)).sum();
    assert!(types.iter().all(|name| count(&spread, name) > 0), "every type is there");
    assert!((600..1_050).contains(&accepted), "about half of the lines have a value");
}

#[test]
fn guidelines_are_a_mix() {
    let all = guidelines(1, 700).filter(|text| text.len() < 3_000 || text.len() > 16_384);
    let spread = spread(all.map(|text| examine(&text)));
    for number in [1, 2, 3, 4, 5, 6, 10] {
        assert!(count(&spread, &format!("refused {number}")) > 0, "refusal {number} is there");
    }
    let broken = count(&spread, "refused 4") + count(&spread, "refused 5");
    assert!(3 * broken >= spread.values().sum(), "a third of the guidelines break names or types");
    assert!((230..350).contains(&count(&spread, "loads")), "two in five of the guidelines load");
}

#[test]
fn texts_are_a_mix() {
    let all: Vec<Vec<u8>> = texts(1, 2_000).collect();
    let short = all.iter().filter(|text| text.len() <= 200).count();
    assert!(short > 1_800, "most of the texts are short");
    let spread = spread(all.iter().map(|text| tokens(text)));
    for kind in ["tokens", "refused 1", "refused 2", "refused 6"] {
        assert!(count(&spread, kind) > 0, "{kind} is there");
    }
    let letters: String = all.iter().map(|text| tokens(text)).collect();
    for letter in ["i", "f", "x", "a", "q", "s", "w", "y"] {
        assert!(letters.contains(&format!(" {letter}:")), "tokens of kind {letter} are there");
    }
}

/// Every answer that a call can get is there, most runs act, and the figures
/// are those of the answers.
#[test]
fn scripts_are_a_mix() {
    let mut made = scripts(1, 1_000);
    let all: Vec<Vec<u8>> = made.by_ref().collect();
    let figures = &made.figures;
    assert_eq!((all.len(), figures.scripts), (1_000, 1_000));
    assert!(2 * figures.enacting >= figures.runs, "at least half of the runs enact a cycle");
    assert!(20 * figures.exceptions >= figures.runs, "one in twenty ends in an exception");
    for answer in [
        "add: done", "add: refused 6", "add: refused 7", "add: refused 8", "add: refused 9", "confirm: done",
        "confirm: refused 7", "confirm: refused 8", "load: loaded", "load: refused 2", "load: refused 3",
        "row: a value", "row: none", "row: refused 7", "rows: all", "rows: refused 7", "run: bounded",
        "run: exception", "run: quiet", "run: refused 6", "run: refused 7", "time: done", "time: refused 6",
        "time: refused 7", "trigger: done", "trigger: refused 6", "trigger: refused 7",
    ] {
        assert!(figures.answers.contains_key(answer), "{answer} is there");
    }
    let exceptions: usize =
        all.iter().map(|script| answers(script).expect("it has the form").matches("exception").count()).sum();
    assert_eq!(exceptions, figures.exceptions);
}

/// Whether a value is one that a script may give.
fn has_the_form(value: &Given) -> bool {
    match value {
        Given::Unknown | Given::Truth(_) => true,
        Given::Integer(integer) => integer.abs() < 1 << 31,
        Given::Real(thousandths) => thousandths.abs() < 1 << 62,
        Given::Text(text) => text.len() <= 64,
        Given::List(elements) => {
            let is_element = |value: &Given| !matches!(value, Given::List(_)) && has_the_form(value);
            elements.len() <= 20 && elements.iter().all(is_element)
        }
    }
}

#[test]
fn scripts_have_the_form() {
    let largest = (1 << 32) - 1;
    for call in scripts(3, 500).flat_map(|script| calls(&script).expect("it has the form")) {
        let fits = match &call {
            Call::Run { bound, lent } => *bound < 1 << 63 && *lent <= 8_192,
            Call::Time(seconds) => *seconds < 1 << 63,
            Call::Confirm(task) => *task <= largest,
            Call::Add(item, value) => *item <= largest && has_the_form(value),
            Call::Row(kind, component, property) => *kind.max(component).max(property) <= largest,
            Call::Load(_) | Call::Trigger(_) | Call::Rows => true,
        };
        assert!(fits, "{call:?}");
    }
}

/// What the calls of the scripts have to try.
#[test]
fn scripts_try_the_limits() {
    let all: Vec<Call> =
        scripts(2, 1_500).flat_map(|script| calls(&script).expect("it has the form")).collect();
    let some = |what: &str, fits: fn(&Call) -> bool| assert!(all.iter().any(fits), "{what}");
    for bound in [0, 1, 256, 257] {
        let fits = |call: &Call| matches!(call, Call::Run { bound: its, .. } if *its == bound);
        assert!(all.iter().any(fits), "a run with bound {bound}");
    }
    some("a short Changes table", |call| matches!(call, Call::Run { lent: 1_023, .. }));
    some("the largest time", |call| *call == Call::Time(4_294_967_295));
    some("a time past the largest", |call| *call == Call::Time(4_294_967_296));
    some("an empty trigger", |call| *call == Call::Trigger(Vec::new()));
    let loaded: Vec<String> = all
        .iter()
        .filter_map(|call| match call {
            Call::Load(text) => Some(String::from_utf8_lossy(text).to_string()),
            _ => None,
        })
        .collect();
    for words in
        ["terminate", "terminal", "wait_condition", "trigger", "mandatory", "schedule_constraint", "''"]
    {
        assert!(loaded.iter().any(|text| text.contains(words)), "{words} in a guideline");
    }
    // A plan says its word twice, and no name has it.
    assert!(loaded.iter().any(|text| text.matches("plan").count() / 2 >= 31), "plans nested to the limit");
    assert!(loaded.iter().any(|text| text.matches("source").count() >= 128), "as many sources as may be");
}
