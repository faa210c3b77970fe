//! Lists of calls in files: a call a line, as it is shown. Empty lines and those that begin with `#` are skipped, and so is what stands behind ` = `.

use crate::engine::Call;
use std::fs;
use std::path::Path;

pub fn read(path: &Path) -> Result<Vec<Call>, String> {
    let text = fs::read_to_string(path).map_err(|problem| format!("cannot read {}: {problem}", path.display()))?;
    let mut calls = Vec::new();
    for (number, line) in text.lines().enumerate() {
        let call = line.split(" = ").next().unwrap_or("").trim();
        if !call.is_empty() && !call.starts_with('#') {
            calls.push(call.parse().map_err(|problem| format!("{}, line {}: {problem}", path.display(), number + 1))?);
        }
    }
    Ok(calls)
}

pub fn write(path: &Path, calls: &[Call]) -> Result<(), String> {
    write_lines(path, calls.iter().map(Call::to_string))
}

/// Writes a text file, and the folder that it is to lie in.
pub fn write_lines(path: &Path, lines: impl Iterator<Item = String>) -> Result<(), String> {
    let text: String = lines.flat_map(|line| [line, "\n".to_string()]).collect();
    let written = path.parent().map_or(Ok(()), fs::create_dir_all).and_then(|()| fs::write(path, text));
    written.map_err(|problem| format!("cannot write {}: {problem}", path.display()))
}
