//! Why there is no answer.

use crate::numbers::{document_part, part, status, DocumentKind, QueryKind};
use crate::profile::Numbers;
use crate::raw::{self, Place, Report};
use std::fmt;

/// Why there is no answer.
#[derive(Clone, Debug, PartialEq, Eq)]
#[non_exhaustive]
pub enum Error {
    /// The query is refused.
    Query(Box<QueryError>),
    /// The document is refused.
    Document(Box<DocumentError>),
    /// The query needs more steps over the document than its limit, which is this.
    StepsUsedUp(u64),
    /// The query selects more nodes of the document than it may give, which is this.
    TooManyNodes(u64),
    /// The answer has more bytes than it may have, which is this.
    TooManyBytes(u64),
    /// The document that is kept was read with these numbers, and the query has others.
    OtherNumbers(Numbers),
    /// Memory ran out.
    NoMemory,
    /// The thread has too little stack left, and no other could be started.
    NoStack,
}

/// A query that is refused.
#[derive(Clone, Debug, PartialEq, Eq)]
pub struct QueryError {
    kind: QueryKind,
    place: usize,
    query: String,
    sentence: String,
    suggestion: Option<String>,
    explanation: String,
}

/// A document that is refused.
#[derive(Clone, Debug, PartialEq, Eq)]
pub struct DocumentError {
    kind: DocumentKind,
    path: Option<String>,
    offset: usize,
    line: usize,
    column: usize,
    reason: String,
    sentence: String,
    suggestion: Option<&'static str>,
}

const BY_LINES: &str =
    "Where each line is a document (JSON Lines), ask one after another: `for line in file.lines()`.";

impl Error {
    /// The error of a report whose status is that of no answer, over no document.
    pub(crate) fn of_query(report: &Report, query: &str, profile: u32) -> Self {
        match report.status {
            status::QUERY_REFUSED => Error::Query(Box::new(QueryError::of(report, query, profile))),
            status::OTHER_NUMBERS => Error::OtherNumbers(Numbers::other_than(profile)),
            _ => Error::of_document(report, String::new(), &[], profile),
        }
    }

    /// The same where no query was read. The text is the path of a number that the profile has not.
    pub(crate) fn of_document(
        report: &Report,
        text: String,
        document: &[u8],
        profile: u32,
    ) -> Self {
        match report.status {
            status::DOCUMENT_REFUSED => {
                Error::Document(Box::new(DocumentError::of(report, text, document, profile)))
            }
            status::NO_MEMORY => Error::NoMemory,
            status::STEPS_USED_UP => Error::StepsUsedUp(report.steps),
            status::NO_STACK => Error::NoStack,
            other => unreachable!("the status {other} of no answer"),
        }
    }
}

impl QueryError {
    fn of(report: &Report, query: &str, profile: u32) -> Self {
        let told = |part| raw::explain(query.as_bytes(), profile, part);
        QueryError {
            kind: QueryKind::of(report.kind).expect("a kind that jp.h names"),
            place: report.place,
            query: query.to_owned(),
            sentence: told(part::SENTENCE),
            suggestion: Some(told(part::SUGGESTION)).filter(|query| !query.is_empty()),
            explanation: told(part::EXPLANATION),
        }
    }

    /// The kind of refusal.
    pub fn kind(&self) -> QueryKind {
        self.kind
    }

    /// The byte of the query at which it is refused, from 0; the query's length where it ends too soon. A
    /// character begins there, or the query ends.
    pub fn place(&self) -> usize {
        self.place
    }

    /// The query.
    pub fn query(&self) -> &str {
        &self.query
    }

    /// Why it is refused, told to whoever typed it. The wording may change. Empty where memory ran out.
    pub fn sentence(&self) -> &str {
        &self.sentence
    }

    /// A query that is accepted, where it is plain what was meant.
    pub fn suggestion(&self) -> Option<&str> {
        self.suggestion.as_deref()
    }

    /// All of it for a terminal, in lines: the line of the query that holds the place, a caret below the place,
    /// the sentence, and the suggestion.
    pub fn explanation(&self) -> &str {
        &self.explanation
    }
}

impl DocumentError {
    fn of(report: &Report, path: String, document: &[u8], profile: u32) -> Self {
        let told = |part| raw::explain_document(document, profile, part);
        let (place, reason) = told(document_part::DOCUMENT_REASON);
        let Place {
            offset,
            line,
            column,
        } = place;
        let is_of_lines = reason == "AfterValue" && is_a_line(&document[..offset]);
        DocumentError {
            kind: DocumentKind::of(report.kind).expect("a kind that jp.h names"),
            path: Some(path).filter(|path| !path.is_empty()),
            offset,
            line,
            column,
            reason,
            sentence: told(document_part::DOCUMENT_SENTENCE).1,
            suggestion: is_of_lines.then_some(BY_LINES),
        }
    }

    /// The byte through which no JSON text goes on, or where what is wrong begins, from 0; the document's length
    /// where it ends too soon.
    pub fn offset(&self) -> usize {
        self.offset
    }

    /// The number of that byte's line, from 1; 0 where nothing was read, as of
    /// [`DocumentKind::DocumentTooLarge`], or memory ran out.
    pub fn line(&self) -> usize {
        self.line
    }

    /// Its column in that line, in characters from 1; 0 where the line is.
    pub fn column(&self) -> usize {
        self.column
    }

    /// The name of the reason, as `TrailingComma`. Empty where the line is 0.
    pub fn reason(&self) -> &str {
        &self.reason
    }

    /// Why it is refused, told to whoever wrote it. The wording may change. Empty where the line is 0.
    pub fn sentence(&self) -> &str {
        &self.sentence
    }

    /// How a text is asked that looks like JSON Lines, where each line is a document.
    pub fn suggestion(&self) -> Option<&str> {
        self.suggestion
    }

    /// What is wrong with it.
    pub fn kind(&self) -> DocumentKind {
        self.kind
    }

    /// Of [`DocumentKind::NotWhole`] the normalized path of the first number that is not a whole one of 64 bits, and
    /// of [`DocumentKind::NumberRange`] that of the first one that is too much for a decimal.
    pub fn path(&self) -> Option<&str> {
        self.path.as_deref()
    }
}

impl fmt::Display for Error {
    fn fmt(&self, f: &mut fmt::Formatter<'_>) -> fmt::Result {
        match self {
            Error::Query(fault) => fault.fmt(f),
            Error::Document(fault) => fault.fmt(f),
            Error::StepsUsedUp(limit) => {
                write!(f, "steps used up: the query needs more than {limit}")
            }
            Error::TooManyNodes(limit) => {
                write!(f, "too many nodes: the query selects more than {limit}")
            }
            Error::TooManyBytes(limit) => {
                write!(f, "too many bytes: the answer has more than {limit}")
            }
            Error::OtherNumbers(numbers) => write!(
                f,
                "other numbers: the document was read with {}, which the query has not: read one of them with the \
                 numbers of the other, by Document::parse_with or Query::parse_with",
                numbers.name()
            ),
            Error::NoMemory => f.write_str("jp ran out of memory"),
            Error::NoStack => {
                f.write_str("jp has too little stack, and no other thread can be started")
            }
        }
    }
}

impl fmt::Display for QueryError {
    fn fmt(&self, f: &mut fmt::Formatter<'_>) -> fmt::Result {
        write!(f, "query refused: {} at {}", self.kind, self.place)?;
        if !self.sentence.is_empty() {
            write!(f, ": {}", self.sentence)?;
        }
        Ok(())
    }
}

impl fmt::Display for DocumentError {
    fn fmt(&self, f: &mut fmt::Formatter<'_>) -> fmt::Result {
        write!(f, "document refused: {}", self.kind)?;
        if let Some(path) = &self.path {
            write!(f, " at {path}")?;
        }
        if self.line > 0 {
            write!(
                f,
                ": line {}, column {}: {}",
                self.line, self.column, self.sentence
            )?;
        }
        match self.suggestion {
            Some(suggestion) => write!(f, " {suggestion}"),
            None => Ok(()),
        }
    }
}

/// Whether all that stands before what is wrong is a value on one line, and the end of that line.
fn is_a_line(before: &[u8]) -> bool {
    let before = String::from_utf8_lossy(before);
    let value = before.trim_end();
    before[value.len()..].contains('\n') && !value.trim_start().contains('\n')
}

impl std::error::Error for Error {}
impl std::error::Error for QueryError {}
impl std::error::Error for DocumentError {}
