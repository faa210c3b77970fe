//! What the rules and the faults quote are the scope documents' own words.

use haskumye_independent::faults;
use std::fs;
use std::path::{Path, PathBuf};

fn root() -> PathBuf {
    PathBuf::from(env!("CARGO_MANIFEST_DIR")).join("..")
}

/// Without marks, and with single spaces.
fn plain(text: &str) -> String {
    text.replace(['*', '`'], "").split_whitespace().collect::<Vec<_>>().join(" ")
}

/// Documents 01 and 02, in one text.
fn documents() -> String {
    let text = |name: &str| fs::read_to_string(root().join("docs/scope").join(name)).expect("a scope document");
    plain(&(text("01-scope.md") + "\n" + &text("02-change-requests.md")))
}

/// The texts of a file or of all files of a folder.
fn texts(path: &Path) -> Vec<String> {
    if path.is_file() {
        return vec![fs::read_to_string(path).expect("a file of the program")];
    }
    let entries = fs::read_dir(path).expect("a folder of the program");
    entries.flat_map(|entry| texts(&entry.expect("an entry").path())).collect()
}

/// What stands between quotation marks in the comments of a text, each comment read as one line.
fn quoted(text: &str) -> Vec<String> {
    let comment = |line: &str| line.trim().strip_prefix("//").map(|line| line.trim_start_matches(['/', '!']).to_string() + " ");
    let comments: String = text.lines().map(|line| comment(line).unwrap_or("\n".to_string())).collect();
    comments.lines().flat_map(|comment| comment.split('"').skip(1).step_by(2)).map(plain).collect()
}

#[test]
fn faults_break_words_of_the_documents() {
    let documents = documents();
    for fault in faults::all() {
        assert!(documents.contains(&plain(fault.breaks)), "{}: {}", fault.name, fault.breaks);
    }
}

#[test]
fn rules_quote_the_documents() {
    let documents = documents();
    let files = ["announcing.rs", "answer.rs", "limits.rs", "packet", "tables", "relay", "recording", "saved", "survey.rs"];
    let texts: Vec<String> = files.iter().flat_map(|file| texts(&root().join("independent/src").join(file))).collect();
    let quotations: Vec<String> = texts.iter().flat_map(|text| quoted(text)).collect();
    assert!(quotations.len() > 80, "{} quotations", quotations.len());
    for quotation in quotations {
        assert!(documents.contains(&quotation), "in neither document: {quotation}");
    }
}
