//! Words and signs of a source text, in C, Rust or Rattle.

use std::collections::VecDeque;

/// The text without its comments; what stands in their place is a space.
pub fn without_comments(text: &str) -> String {
    let mut plain = String::new();
    let mut rest = text;
    while let Some(start) = [rest.find("/*"), rest.find("//")].into_iter().flatten().min() {
        let end = if rest[start..].starts_with("//") { "\n" } else { "*/" };
        plain.push_str(&rest[..start]);
        plain.push_str(if end == "\n" { "\n" } else { " " });
        rest = rest[start..].split_once(end).map_or("", |(_, after)| after);
    }
    plain + rest
}

/// The words, numbers and signs of a text without comments, read from the front.
pub struct Tokens(VecDeque<String>);

impl Tokens {
    pub fn of(text: &str) -> Self {
        let mut tokens: VecDeque<String> = VecDeque::new();
        let mut in_word = false;
        for sign in text.chars() {
            let word = sign.is_ascii_alphanumeric() || sign == '_';
            match tokens.back_mut() {
                Some(last) if word && in_word => last.push(sign),
                _ if sign.is_whitespace() => (),
                _ => tokens.push_back(sign.into()),
            }
            in_word = word;
        }
        Self(tokens)
    }

    pub fn next(&mut self) -> String {
        self.0.pop_front().expect("the text ended too soon")
    }

    pub fn is_empty(&self) -> bool {
        self.0.is_empty()
    }

    /// Takes the tokens of a pattern, words and signs apart by spaces, if they come next.
    pub fn take(&mut self, pattern: &str) -> bool {
        let words: Vec<&str> = pattern.split(' ').collect();
        let comes = words.len() <= self.0.len() && words.iter().zip(&self.0).all(|(word, token)| word == token);
        if comes {
            self.0.drain(..words.len());
        }
        comes
    }

    pub fn expect(&mut self, pattern: &str) {
        assert!(self.take(pattern), "expected {pattern:?} before {:?}", self.0.iter().take(12).collect::<Vec<_>>());
    }

    pub fn number(&mut self) -> u64 {
        let token = self.next();
        number(&token).unwrap_or_else(|| panic!("expected a number instead of {token:?}"))
    }

    /// Passes all up to a block in braces, and the block.
    pub fn pass_body(&mut self) {
        while self.next() != "{" {}
        let mut open = 1;
        while open > 0 {
            match self.next().as_str() {
                "{" => open += 1,
                "}" => open -= 1,
                _ => (),
            }
        }
    }

    /// Passes attributes: #[..].
    pub fn pass_attributes(&mut self) {
        while self.take("# [") {
            while self.next() != "]" {}
        }
    }
}

/// A number in C or Rust, decimal or hexadecimal.
pub fn number(text: &str) -> Option<u64> {
    let text = text.strip_prefix("UINT64_C(").and_then(|rest| rest.strip_suffix(')')).unwrap_or(text);
    match text.strip_prefix("0x") {
        Some(digits) => u64::from_str_radix(digits, 16).ok(),
        None => text.replace('_', "").parse().ok(),
    }
}
