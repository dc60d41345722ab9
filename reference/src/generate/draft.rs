//! A script as lists of tokens. The grammar never puts two words side by side,
//! so tokens may be joined with or without blanks. And how its names are drawn.

use crate::random::Random;

pub type Tokens = Vec<String>;

/// Definitions and located processes, each without its final sign.
#[derive(Clone, Debug, Default)]
pub struct Draft {
    pub definitions: Vec<Tokens>,
    pub located: Vec<Tokens>,
}

impl Draft {
    /// All tokens of the text.
    pub fn tokens(&self) -> Tokens {
        let mut tokens = Tokens::new();
        for definition in &self.definitions {
            tokens.extend_from_slice(definition);
            tokens.push(".".to_string());
        }
        for (index, located) in self.located.iter().enumerate() {
            if index > 0 {
                tokens.push("|".to_string());
            }
            tokens.extend_from_slice(located);
        }
        tokens.push(".".to_string());
        tokens
    }
}

/// Cuts plain text into tokens: words, and signs of one byte.
pub fn cut(text: &str) -> Tokens {
    let mut tokens = Tokens::new();
    let mut in_word = false;
    for letter in text.chars() {
        let word = letter.is_ascii_alphanumeric();
        match tokens.last_mut() {
            Some(last) if word && in_word => last.push(letter),
            _ if letter != ' ' && letter != '\n' => tokens.push(letter.to_string()),
            _ => {}
        }
        in_word = word;
    }
    tokens
}

/// Joins tokens: without blanks, with one space each, or with blanks at random.
pub fn spaced(random: &mut Random, tokens: &[String]) -> Vec<u8> {
    let style = random.weighted(&[4, 2, 2]);
    let mut text = Vec::new();
    for token in tokens {
        let blanks = match style {
            0 => 0,
            1 => 1,
            _ => random.below(3),
        };
        for _ in 0..blanks {
            text.push(if style == 2 && random.chance(1, 3) {
                b'\n'
            } else {
                b' '
            });
        }
        text.extend_from_slice(token.as_bytes());
    }
    if style > 0 {
        text.push(b'\n');
    }
    text
}

/// Between `low` and `high` different ones of a list.
pub fn some(
    random: &mut Random,
    of: &[&'static str],
    low: usize,
    high: usize,
) -> Vec<&'static str> {
    let mut chosen = of.to_vec();
    random.shuffle(&mut chosen);
    chosen.truncate(random.between(low, high));
    chosen
}

/// The first in two of three cases, else any.
pub fn first_mostly(random: &mut Random, of: &[&'static str]) -> &'static str {
    let chosen = if random.chance(2, 3) {
        0
    } else {
        random.below(of.len())
    };
    of[chosen]
}
