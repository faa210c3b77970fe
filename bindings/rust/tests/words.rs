//! The words for numbers are those of bindings/words.

use haskumye::raw::{haskumye_answer_text, TEXT_SIZE};
use haskumye::{Mode, PortSet, Reason, Refusal, Verdict};
use std::collections::BTreeMap;

/// An answer of each kind, by its number.
fn kinds() -> Vec<String> {
    let verdicts = [
        Verdict::Drop(Reason::NotOurs),
        Verdict::Deliver { payload: 19 },
        Verdict::Forward { port: 0, length: 19 },
        Verdict::Spread { ports: PortSet::from_bits(1), length: 19 },
        Verdict::Kept,
    ];
    let answers = verdicts.map(|verdict| verdict.to_string());
    [Refusal::Tables.to_string()].into_iter().chain(answers).map(|text| text.split(' ').next().unwrap_or_default().into()).collect()
}

/// `6.3`, or `2` where a test has no clauses.
fn numbers(reason: Reason) -> String {
    match reason.clause() {
        0 => reason.number().to_string(),
        clause => format!("{}.{clause}", reason.number()),
    }
}

#[test]
fn words_are_those_of_the_list() {
    let path = concat!(env!("CARGO_MANIFEST_DIR"), "/../words");
    let list = std::fs::read_to_string(path).expect(path);
    let refusals = Refusal::ALL.iter().map(|case| format!("refusal {} {}", case.number(), case.words()));
    let mut reasons: Vec<String> = Reason::all().iter().map(|case| format!("reason {} {}", case.number(), case.words())).collect();
    reasons.dedup();
    let sentences = Reason::all().into_iter().map(|case| format!("sentence {} {}", numbers(case), case.sentence_form()));
    let kinds = kinds().into_iter().enumerate().map(|(number, word)| format!("kind {number} {word}"));
    let modes = Mode::ALL.iter().map(|case| format!("mode {} {}", case.number(), case.words()));
    let words: Vec<String> = refusals.chain(reasons).chain(sentences).chain(kinds).chain(modes).collect();
    assert_eq!(words, list.lines().filter(|line| !line.starts_with('#')).collect::<Vec<_>>());
}

/// The card has a line for each reason and clause, with the same sentence, and nothing else.
#[test]
fn the_ladder_card_has_every_reason() {
    let path = concat!(env!("CARGO_MANIFEST_DIR"), "/../../docs/LADDER.md");
    let card = std::fs::read_to_string(path).expect(path);
    let rows = card.lines().filter(|line| line.starts_with("| **"));
    let cells = |line: &str| line.split('|').map(|cell| cell.trim().trim_matches('*').to_string()).collect::<Vec<_>>();
    let told: BTreeMap<String, String> = rows.map(cells).map(|cells| (cells[1].clone(), cells[2].clone())).collect();
    let sentences = Reason::all().into_iter().map(|reason| (numbers(reason), reason.sentence_form().replace('#', "N"))).collect();
    assert_eq!(told, sentences);
}

/// Each reason's text before the sentence is what the library says of the answer's number.
#[test]
fn texts_are_those_of_the_library() {
    for reason in Reason::all() {
        let value = if reason.sentence_form().contains('#') { (1 << 41) - 1 } else { 0 };
        let reason = Reason::from_numbers(reason.number(), reason.clause(), value).expect("a reason");
        let number = 1 | u64::from(reason.number()) << 8 | u64::from(reason.clause()) << 16 | value << 20;
        let mut text = [0; TEXT_SIZE];
        let length = unsafe { haskumye_answer_text(number, &mut text) };
        let text = std::str::from_utf8(&text[..length]).expect("plain text");
        assert_eq!(reason.to_string(), format!("{text}: {}", reason.sentence()));
    }
}
