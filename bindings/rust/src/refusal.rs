//! Why a specification, shapes of further operations, or plans are refused.

use std::fmt;

/// Of each rule what it asks, what an item that is refused does, and what to try; and the forms of lines.
const RULES: &str = include_str!("rules.txt");

/// How many characters of a refused line are shown.
const SHOWN: usize = 80;

/// Which text is refused.
#[derive(Clone, Copy, Debug, PartialEq, Eq)]
pub(crate) enum Text {
    Specification,
    Shapes,
    Plans,
}

/// A specification that is refused, or a shape of an operation that it doesn't declare, or plans of its operations: the first
/// rule that is broken, with the line or the item that breaks it.
///
/// `Display` says it in words: what the rule asks, what the line or the item does, and what to try.
#[derive(Clone, Debug, PartialEq, Eq)]
pub struct Refusal {
    /// As `relc check` and `relc hand` print it.
    said: String,
    of: Text,
    /// The line that is refused, where one is.
    line: Option<String>,
}

/// What stands behind the word in the rule's part of the text.
fn part(rule: &str, word: &str) -> &'static str {
    RULES
        .lines()
        .skip_while(|line| line.strip_prefix("rule ") != Some(rule))
        .skip(1)
        .take_while(|line| !line.is_empty())
        .find_map(|line| line.strip_prefix(word)?.strip_prefix(' '))
        .unwrap_or("")
}

impl Refusal {
    /// The refusal that the store told of a text.
    pub(crate) fn new(said: String, of: Text, text: &str) -> Refusal {
        let mut refusal = Refusal {
            said,
            of,
            line: None,
        };
        refusal.line = refusal
            .line_number()
            .and_then(|number| text.lines().nth(number.checked_sub(1)?))
            .map(str::to_owned);
        refusal
    }

    /// Whether the plans are refused, and not the specification: a line of their text, or a plan.
    pub fn is_of_plans(&self) -> bool {
        self.of == Text::Plans
    }

    /// Whether a shape is refused: the line's number is that among the shapes, from 1.
    pub fn is_of_shapes(&self) -> bool {
        self.of == Text::Shapes
    }

    /// As `relc check` prints it: `refused S2 line 11`, or `refused A3 edge e2`; and of plans as `relc hand` does:
    /// `refused H2 line 3`, or `refused K2 plan succ statement 1`.
    pub fn as_str(&self) -> &str {
        &self.said
    }

    fn word(&self, at: usize) -> &str {
        self.said.split(' ').nth(at).unwrap_or("")
    }

    /// The rule's name: `A3`.
    pub fn rule(&self) -> &str {
        self.word(1)
    }

    /// What is refused: `line`, `node`, `edge`, `column`, `lock`, `op` or `plan`.
    pub fn kind(&self) -> &str {
        self.word(2)
    }

    /// The item's name, that of a plan's operation, or the line's number: `e2`, `succ`, or `11`.
    pub fn item(&self) -> &str {
        self.word(3)
    }

    /// The number of the line, from 1, where the rule is one of lines. It may be one past the last.
    pub fn line_number(&self) -> Option<usize> {
        (self.kind() == "line").then(|| self.item().parse().ok())?
    }

    /// The number of the statement, from 0, where a plan is refused. It may be one past the last.
    pub fn statement(&self) -> Option<usize> {
        (self.kind() == "plan").then(|| self.word(5).parse().ok())?
    }

    /// What the rule asks.
    pub fn asks(&self) -> &'static str {
        part(self.rule(), "asks")
    }

    /// What the item or the line does.
    pub fn does(&self) -> &'static str {
        part(self.rule(), "does")
    }

    /// What to try.
    pub fn advice(&self) -> &'static str {
        part(self.rule(), "try")
    }

    /// The forms of a line that begins as the refused one does, of a specification, of shapes or of plans; all forms, where
    /// none begins so. What may be left out stands in brackets.
    pub fn forms(&self) -> Vec<&'static str> {
        let line = self.line.as_deref().unwrap_or("");
        let word = line.split_ascii_whitespace().next();
        let all = forms(match self.of {
            Text::Specification => "forms",
            Text::Shapes => "shapes",
            Text::Plans => "statements",
        });
        let some: Vec<_> = (all.clone())
            .filter(|form| form.split(' ').next() == word)
            .collect();
        if some.is_empty() { all.collect() } else { some }
    }
}

/// The forms of the lines of a specification, of shapes, or of plans.
fn forms(of: &str) -> impl Iterator<Item = &'static str> + Clone {
    RULES
        .lines()
        .skip_while(move |line| *line != of)
        .skip(1)
        .take_while(|line| !line.is_empty())
}

impl fmt::Display for Refusal {
    fn fmt(&self, f: &mut fmt::Formatter<'_>) -> fmt::Result {
        write!(f, "{}", self.said)?;
        if let Some(line) = &self.line {
            // (it may be long, and have any characters)
            let line = line.trim();
            let shown: String = line.chars().take(SHOWN).collect();
            let rest = if shown.len() < line.len() { ".." } else { "" };
            write!(f, " (`{}{rest}`)", shown.escape_debug())?;
        }
        write!(f, ". {} {} {}", self.asks(), self.does(), self.advice())?;
        if self.rule() == "S2" || self.rule() == "H2" {
            for form in self.forms() {
                write!(f, " `{form}`.")?;
            }
        }
        Ok(())
    }
}
