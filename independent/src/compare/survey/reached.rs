//! What the texts of surveys tell, and how often.

use std::collections::BTreeMap;

/// What texts told, by their words.
#[derive(Default)]
pub struct Reached(BTreeMap<String, usize>);

/// Refusals of recordings and of settings, and tests. Test 12 is never told: settings stay, and what leaves does so by a port that was on.
const RECORDINGS: [&str; 5] = ["20", "21", "22", "23", "29"];
const SETTINGS: [&str; 4] = ["20", "21", "22", "24"];
const TESTS: [u8; 14] = [1, 2, 3, 4, 5, 6, 7, 8, 9, 10, 11, 15, 16, 13];
const SHARES: [&str; 5] = ["of none", "none of some", "all of some", "lower terms than counted", "the terms that were counted"];

impl Reached {
    fn add(&mut self, what: String, times: usize) {
        *self.0.entry(what).or_default() += times;
    }

    pub fn count(&mut self, recordings: usize, text: &str) {
        self.add(if recordings > 16 { "surveys of over 16 recordings".to_string() } else { "surveys of up to 16".to_string() }, 1);
        for line in text.lines() {
            match line.split(' ').collect::<Vec<_>>()[..] {
                ["settings", "refused", number] => self.add(format!("settings refused {number}"), 1),
                ["recording", _, "refused", number] => self.add(format!("recordings refused {number}"), 1),
                ["port", _, "packets", packets, "in", _, "out", out, "dropped", share] => {
                    self.add(format!("shares, {}", kind(packets, share)), 1);
                    self.add("ports that sent".to_string(), usize::from(out != "0"));
                }
                ["reason", test, times] => self.add(format!("test {test}"), times.parse().expect("a number")),
                _ => assert_eq!(line, "survey"),
            }
        }
    }

    /// Each thing that can be told, and how often it was.
    pub fn reached(&self) -> Vec<(String, usize)> {
        let recordings = RECORDINGS.iter().map(|number| format!("recordings refused {number}"));
        let settings = SETTINGS.iter().map(|number| format!("settings refused {number}"));
        let tests = TESTS.iter().map(|test| format!("test {test}"));
        let shares = SHARES.iter().map(|share| format!("shares, {share}"));
        let others = ["ports that sent", "surveys of up to 16"].map(str::to_string);
        let all = recordings.chain(settings).chain(tests).chain(shares).chain(others);
        all.map(|what| (what.clone(), self.0.get(&what).copied().unwrap_or(0))).collect()
    }
}

/// What kind of share it is.
fn kind(packets: &str, share: &str) -> &'static str {
    let (_, whole) = share.split_once('/').expect("a fraction");
    match share {
        "0/1" if packets == "0" => SHARES[0],
        "0/1" => SHARES[1],
        "1/1" => SHARES[2],
        _ if whole != packets => SHARES[3],
        _ => SHARES[4],
    }
}
