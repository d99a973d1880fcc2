//! Texts for text columns.

use std::collections::HashMap;
use std::sync::{Arc, PoisonError, RwLock};

/// Texts and their numbers, which threads share: a text column of a store takes the number of a text in its place.
///
/// Numbers count from 0 in the order in which texts were first told, so rows rise by them, and not by the
/// texts. No text is ever forgotten.
///
/// ```
/// let texts = relc::Texts::new();
/// let run = texts.number("run");
/// assert_eq!(texts.number("sleep"), 1);
/// assert_eq!(texts.number("run"), run);
/// assert_eq!(texts.find("stop"), None);
/// assert_eq!(texts.text(run).as_deref(), Some("run"));
/// ```
#[derive(Debug, Default)]
pub struct Texts {
    told: RwLock<Told>,
}

#[derive(Debug, Default)]
struct Told {
    numbers: HashMap<Arc<str>, u64>,
    texts: Vec<Arc<str>>,
}

impl Texts {
    /// No texts.
    pub fn new() -> Texts {
        Texts::default()
    }

    /// The text's number, a new one where it is told for the first time. Costs a hash of the text, under a lock that
    /// readers share, and of a new text a second one, alone.
    pub fn number(&self, text: &str) -> u64 {
        if let Some(number) = self.find(text) {
            return number;
        }
        let mut told = self.told.write().unwrap_or_else(PoisonError::into_inner);
        // (another thread may have told it meanwhile)
        if let Some(number) = told.numbers.get(text) {
            return *number;
        }
        let number = told.texts.len() as u64;
        let text: Arc<str> = text.into();
        told.texts.push(text.clone());
        told.numbers.insert(text, number);
        number
    }

    /// The text's number, if it was told.
    pub fn find(&self, text: &str) -> Option<u64> {
        let told = self.told.read().unwrap_or_else(PoisonError::into_inner);
        told.numbers.get(text).copied()
    }

    /// The text with this number, if there is one.
    pub fn text(&self, number: u64) -> Option<Arc<str>> {
        let told = self.told.read().unwrap_or_else(PoisonError::into_inner);
        told.texts.get(usize::try_from(number).ok()?).cloned()
    }

    /// How many texts were told.
    pub fn len(&self) -> usize {
        let told = self.told.read().unwrap_or_else(PoisonError::into_inner);
        told.texts.len()
    }

    /// Whether none was.
    pub fn is_empty(&self) -> bool {
        self.len() == 0
    }
}
