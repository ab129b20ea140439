//! Numbers of the calls of `libjp.a`. Made from bindings/numbers.json by `.ci/numbers --write`.
#![allow(dead_code)]

use std::fmt;

/// A limit of steps that is none.
pub(crate) const NO_LIMIT: u64 = 0;

/// As many bytes of stack as any call may need.
pub(crate) const STACK: usize = 737280;

pub(crate) mod status {
    pub(crate) const DONE: u32 = 0;
    pub(crate) const QUERY_REFUSED: u32 = 1;
    pub(crate) const USAGE: u32 = 2;
    pub(crate) const DOCUMENT_REFUSED: u32 = 3;
    pub(crate) const NO_MEMORY: u32 = 4;
    pub(crate) const NO_STACK: u32 = 7;
    pub(crate) const TOO_MANY_NODES: u32 = 8;
    pub(crate) const TOO_MANY_BYTES: u32 = 9;
    pub(crate) const STEPS_USED_UP: u32 = 10;
    pub(crate) const OTHER_NUMBERS: u32 = 11;
}

pub(crate) mod form {
    pub(crate) const VALUES: u32 = 0;
    pub(crate) const PATHS: u32 = 1;
    pub(crate) const BOTH: u32 = 2;
}

pub(crate) mod profile {
    pub(crate) const STANDARD: u32 = 0;
    pub(crate) const EXTENDED: u32 = 1;
    pub(crate) const DECIMAL: u32 = 2;
    pub(crate) const EXTENDED_DECIMAL: u32 = 3;
}

pub(crate) mod part {
    pub(crate) const EXPLANATION: u32 = 0;
    pub(crate) const SENTENCE: u32 = 1;
    pub(crate) const SUGGESTION: u32 = 2;
}

pub(crate) mod document_part {
    pub(crate) const DOCUMENT_LINE: u32 = 0;
    pub(crate) const DOCUMENT_SENTENCE: u32 = 1;
    pub(crate) const DOCUMENT_REASON: u32 = 2;
}

/// Why a query is refused.
#[derive(Clone, Copy, Debug, PartialEq, Eq, Hash)]
#[non_exhaustive]
pub enum QueryKind {
    /// No query begins with the text up to the place and the character there.
    Syntax,
    /// More than 128 levels inside one another.
    TooDeep,
    /// A literal with a fraction or an exponent.
    NotWhole,
    /// A literal outside -(2^63) to (2^64)-1, or of decimals one that is too much for one.
    NumberRange,
    /// An index or a part of a slice outside -(2^53)+1 to (2^53)-1.
    IndexRange,
    /// No function of the profile has that name.
    UnknownFunction,
    /// A call with too many arguments or too few.
    ArgumentCount,
    /// A query that stands for one value and is not singular.
    NotSingular,
    /// A call or an argument that does not fit what is wanted.
    IllTyped,
}

impl QueryKind {
    pub(crate) fn of(number: u32) -> Option<Self> {
        match number {
            1 => Some(QueryKind::Syntax),
            2 => Some(QueryKind::TooDeep),
            3 => Some(QueryKind::NotWhole),
            4 => Some(QueryKind::NumberRange),
            5 => Some(QueryKind::IndexRange),
            6 => Some(QueryKind::UnknownFunction),
            7 => Some(QueryKind::ArgumentCount),
            8 => Some(QueryKind::NotSingular),
            9 => Some(QueryKind::IllTyped),
            _ => None,
        }
    }

    /// Its name, as the program jp tells it.
    pub fn name(self) -> &'static str {
        match self {
            QueryKind::Syntax => "Syntax",
            QueryKind::TooDeep => "TooDeep",
            QueryKind::NotWhole => "NotWhole",
            QueryKind::NumberRange => "NumberRange",
            QueryKind::IndexRange => "IndexRange",
            QueryKind::UnknownFunction => "UnknownFunction",
            QueryKind::ArgumentCount => "ArgumentCount",
            QueryKind::NotSingular => "NotSingular",
            QueryKind::IllTyped => "IllTyped",
        }
    }
}

impl fmt::Display for QueryKind {
    fn fmt(&self, f: &mut fmt::Formatter<'_>) -> fmt::Result {
        f.write_str(self.name())
    }
}

/// What is wrong with a document.
#[derive(Clone, Copy, Debug, PartialEq, Eq, Hash)]
#[non_exhaustive]
pub enum DocumentKind {
    /// No JSON, no UTF-8, or deeper than 127 levels.
    NotJson,
    /// The text is the normalized path of the first number that is not.
    NotWhole,
    /// More than (2^53)-1 items.
    ListTooLong,
    /// The text is the normalized path of the first number that is too much for a decimal.
    NumberRange,
    /// 2^32 bytes or more.
    DocumentTooLarge,
}

impl DocumentKind {
    pub(crate) fn of(number: u32) -> Option<Self> {
        match number {
            1 => Some(DocumentKind::NotJson),
            2 => Some(DocumentKind::NotWhole),
            3 => Some(DocumentKind::ListTooLong),
            5 => Some(DocumentKind::NumberRange),
            6 => Some(DocumentKind::DocumentTooLarge),
            _ => None,
        }
    }

    /// Its name, as the program jp tells it.
    pub fn name(self) -> &'static str {
        match self {
            DocumentKind::NotJson => "NotJson",
            DocumentKind::NotWhole => "NotWhole",
            DocumentKind::ListTooLong => "ListTooLong",
            DocumentKind::NumberRange => "NumberRange",
            DocumentKind::DocumentTooLarge => "DocumentTooLarge",
        }
    }
}

impl fmt::Display for DocumentKind {
    fn fmt(&self, f: &mut fmt::Formatter<'_>) -> fmt::Result {
        f.write_str(self.name())
    }
}
