//! Operations by what they ask.

use crate::sys;
use std::fmt;

/// An operation by what it asks: its kind, and its lists of columns by their names, in written order. It has no name of its own,
/// and needs no declaration: [`Store::open_with`](crate::Store::open_with) opens a store with it.
///
/// Two shapes ask alike where they are equal.
#[derive(Clone, Debug, PartialEq, Eq, Hash)]
pub struct Shape {
    kind: u32,
    line: String,
}

/// Appends the columns, each behind a space. What can't be a name is written in quotes, so that it names no column.
fn push(line: &mut String, columns: &[&str]) {
    for column in columns {
        line.push(' ');
        let is_word = |byte: u8| byte.is_ascii_lowercase() || byte.is_ascii_digit() || byte == b'_';
        if !column.is_empty() && column.bytes().all(is_word) {
            line.push_str(column);
        } else {
            line.push_str(&format!("{column:?}"));
        }
    }
}

impl Shape {
    fn change<'a>(kind: u32, word: &str, pattern: impl AsRef<[&'a str]>) -> Shape {
        let mut line = word.to_owned();
        push(&mut line, pattern.as_ref());
        Shape { kind, line }
    }

    /// A query by the columns of the pattern, for rows of the outputs: `query PATTERN -> OUTPUTS`.
    pub fn query<'a, 'b>(pattern: impl AsRef<[&'a str]>, outs: impl AsRef<[&'b str]>) -> Shape {
        let mut shape = Shape::change(sys::QUERY, "query", pattern);
        shape.line.push_str(" ->");
        push(&mut shape.line, outs.as_ref());
        shape
    }

    /// A query by the columns of the pattern and those of ranges, for rows of the outputs: `query PATTERN : RANGES -> OUTPUTS`,
    /// in a text with `relc 2`. Its calls give the values of the pattern, and then for each range column the least value and
    /// the greatest.
    pub fn ranges<'a, 'b, 'c>(
        pattern: impl AsRef<[&'a str]>,
        ranges: impl AsRef<[&'b str]>,
        outs: impl AsRef<[&'c str]>,
    ) -> Shape {
        let mut shape = Shape::change(sys::QUERY, "query", pattern);
        if !ranges.as_ref().is_empty() {
            shape.line.push_str(" :");
            push(&mut shape.line, ranges.as_ref());
        }
        shape.line.push_str(" ->");
        push(&mut shape.line, outs.as_ref());
        shape
    }

    /// An insert that adds a tuple where none has the same values of the pattern: `insert PATTERN`. Its calls give a value of
    /// each column.
    pub fn insert<'a>(pattern: impl AsRef<[&'a str]>) -> Shape {
        Shape::change(sys::INSERT, "insert", pattern)
    }

    /// A remove of the tuple with these values of the pattern: `remove PATTERN`.
    pub fn remove<'a>(pattern: impl AsRef<[&'a str]>) -> Shape {
        Shape::change(sys::REMOVE, "remove", pattern)
    }

    /// An update that puts a tuple in the place of the one with the same values of the pattern: `update PATTERN`, in a text
    /// with `relc 2`. Its calls give a value of each column.
    pub fn update<'a>(pattern: impl AsRef<[&'a str]>) -> Shape {
        Shape::change(sys::UPDATE, "update", pattern)
    }

    /// As a line of a text of shapes: `query src -> dst`.
    pub fn as_str(&self) -> &str {
        &self.line
    }

    /// The kind of the operation, as frames tell it.
    pub(crate) fn kind(&self) -> u32 {
        self.kind
    }
}

impl fmt::Display for Shape {
    fn fmt(&self, f: &mut fmt::Formatter<'_>) -> fmt::Result {
        self.line.fmt(f)
    }
}

/// What a call of a shape answers: [`Session::ask`](crate::Session::ask).
#[derive(Clone, Debug, PartialEq, Eq)]
#[must_use = "a call may change nothing: `Present`, `Conflict` and `Absent` are no errors"]
#[non_exhaustive]
pub enum Reply {
    /// A query's distinct rows, rising.
    Rows(Vec<Vec<u64>>),
    /// A query has more rows than the store lists: so many.
    Many(u64),
    /// The tuple was added.
    Added,
    /// A tuple with the same pattern values is there.
    Present,
    /// It would break the dependency with this number, counted from 1.
    Conflict(u64),
    /// This tuple was taken out.
    Removed(Vec<u64>),
    /// The tuple is in the place of this one, which had its pattern values.
    Replaced(Vec<u64>),
    /// No tuple matches.
    Absent,
}
