//! A query that is accepted.

use crate::document::Document;
use crate::error::Error;
use crate::iter::{Asked, FindIter};
use crate::nodes::Nodes;
use crate::numbers::{form, status};
use crate::profile::{self, Numbers, Profile};
use crate::raw::{self, Cursor, Handle, Limit, Report};
use std::fmt;
use std::num::NonZeroU64;
use std::str::FromStr;
use std::sync::{Mutex, PoisonError, TryLockError};

/// Which nodes are asked for: those behind the first `from` ones, and of these as many as `count` says, where 0 is
/// all.
#[derive(Clone, Copy)]
pub(crate) struct Span {
    pub(crate) from: u64,
    pub(crate) count: u64,
}

const ALL: Span = Span { from: 0, count: 0 };
const FIRST: Span = Span { from: 0, count: 1 };

/// A query that is accepted. It can be kept, and asked of any number of documents.
///
/// ```
/// use jsonpath_jp::Query;
///
/// let query: Query = "$.a[-1]".parse()?;
/// assert_eq!(query.find(br#"{"a":[1,2]}"#)?.only().map(|node| node.value()), Some("2"));
/// assert!(query.find(b"[]")?.is_empty());
/// # Ok::<(), jsonpath_jp::Error>(())
/// ```
pub struct Query {
    text: String,
    profile: Profile,
    numbers: Numbers,
    limit: Limit,
    handle: Mutex<Handle>,
}

impl Query {
    /// Reads a query with the functions of RFC 9535 and exact decimals.
    ///
    /// # Errors
    ///
    /// [`Error::Query`] where it is refused, [`Error::NoMemory`] and [`Error::NoStack`].
    pub fn parse(text: &str) -> Result<Self, Error> {
        Self::parse_with(text, Profile::Standard, Numbers::Decimal)
    }

    /// Reads a query that may also call `distinct`.
    ///
    /// # Errors
    ///
    /// Those of [`parse`](Self::parse).
    ///
    /// ```
    /// use jsonpath_jp::Query;
    ///
    /// let query = Query::parse_extended("$[?count(distinct(@['a','a'])) == 1]")?;
    /// assert_eq!(query.find(br#"[{"a":0}]"#)?.len(), 1);
    /// # Ok::<(), jsonpath_jp::Error>(())
    /// ```
    pub fn parse_extended(text: &str) -> Result<Self, Error> {
        Self::parse_with(text, Profile::Extended, Numbers::Decimal)
    }

    /// Reads a query with the functions of the profile and with these numbers.
    ///
    /// # Errors
    ///
    /// Those of [`parse`](Self::parse).
    ///
    /// ```
    /// use jsonpath_jp::{Error, Numbers, Profile, Query, QueryKind};
    ///
    /// let Err(Error::Query(fault)) = Query::parse_with("$[?@ < 0.5]", Profile::Standard, Numbers::Whole) else {
    ///     panic!("it is refused")
    /// };
    /// assert_eq!((fault.kind(), fault.place()), (QueryKind::NotWhole, 7));
    /// ```
    pub fn parse_with(text: &str, profile: Profile, numbers: Numbers) -> Result<Self, Error> {
        let mut handle = Handle::empty();
        let number = profile::number(profile, numbers);
        let report = handle.keep_query(text.as_bytes(), number);
        match report.status {
            status::DONE => Ok(Query {
                text: text.to_owned(),
                profile,
                numbers,
                limit: Limit::default(),
                handle: Mutex::new(handle),
            }),
            _ => Err(Error::of_query(&report, text, number)),
        }
    }

    /// The query with a limit: over each document it may make at most so many steps, and where it needs more
    /// the answer is [`Error::StepsUsedUp`].
    ///
    /// Some queries take years over a document of a few bytes, so whoever asks queries of strangers gives one.
    /// A step is about one value that is looked at, or one byte that is compared.
    ///
    /// ```
    /// use jsonpath_jp::{Error, Query};
    ///
    /// let query = Query::parse("$..*..*..*..*")?.with_limit(1_000.try_into().unwrap());
    /// assert!(matches!(query.find(&[[b'['; 100], [b']'; 100]].concat()), Err(Error::StepsUsedUp(1_000))));
    /// # Ok::<(), Error>(())
    /// ```
    #[must_use]
    pub fn with_limit(mut self, steps: NonZeroU64) -> Self {
        self.limit.steps = steps.get();
        self
    }

    /// The query with a most of nodes: where it selects more of a document the answer is [`Error::TooManyNodes`].
    /// Nodes that are looked for [one after another](Self::find_iter) are not counted.
    ///
    /// ```
    /// use jsonpath_jp::{Error, Query};
    ///
    /// let query = Query::parse("$[*]")?.with_max_nodes(2.try_into().unwrap());
    /// assert_eq!(query.find(b"[1,2]")?.len(), 2);
    /// assert_eq!(query.find(b"[1,2,3]"), Err(Error::TooManyNodes(2)));
    /// # Ok::<(), Error>(())
    /// ```
    #[must_use]
    pub fn with_max_nodes(mut self, nodes: NonZeroU64) -> Self {
        self.limit.nodes = nodes.get();
        self
    }

    /// The query with a most of bytes: where an answer has more it is [`Error::TooManyBytes`]. The bytes are those of
    /// a line for each node, which is its path, a tab, its value and a newline; of [`exists`](Self::exists) the path
    /// and a newline. Nodes that are looked for [one after another](Self::find_iter) are not counted.
    ///
    /// A short query can have an answer of many times the bytes of the document, so whoever asks queries of
    /// strangers gives this, too.
    ///
    /// ```
    /// use jsonpath_jp::{Error, Query};
    ///
    /// let query = Query::parse("$[0,0]")?.with_max_bytes(14.try_into().unwrap());
    /// assert_eq!(query.find(b"[1]")?.len(), 2);
    /// assert_eq!(query.find(b"[12]"), Err(Error::TooManyBytes(14)));
    /// # Ok::<(), Error>(())
    /// ```
    #[must_use]
    pub fn with_max_bytes(mut self, bytes: NonZeroU64) -> Self {
        self.limit.bytes = bytes.get();
        self
    }

    /// The query as it was given.
    pub fn text(&self) -> &str {
        &self.text
    }

    /// The functions with which it was read.
    pub fn profile(&self) -> Profile {
        self.profile
    }

    /// The numbers with which it was read, which its documents have too.
    pub fn numbers(&self) -> Numbers {
        self.numbers
    }

    /// How many steps it may make over a document, where there is a limit.
    pub fn limit(&self) -> Option<NonZeroU64> {
        NonZeroU64::new(self.limit.steps)
    }

    /// How many nodes it may give of a document, where there is a limit.
    pub fn max_nodes(&self) -> Option<NonZeroU64> {
        NonZeroU64::new(self.limit.nodes)
    }

    /// How many bytes an answer may have, where there is a limit.
    pub fn max_bytes(&self) -> Option<NonZeroU64> {
        NonZeroU64::new(self.limit.bytes)
    }

    /// The nodes that it selects in a JSON text. The memory that this takes stays with the query for the next
    /// document, so asking one query again and again is cheap.
    ///
    /// # Errors
    ///
    /// [`Error::Document`] where the bytes are no document, [`Error::StepsUsedUp`], [`Error::TooManyNodes`] and
    /// [`Error::TooManyBytes`] where there is such a limit and the query goes beyond it, [`Error::NoMemory`] and
    /// [`Error::NoStack`].
    pub fn find(&self, document: &[u8]) -> Result<Nodes, Error> {
        self.lines(form::BOTH, ALL, document).map(Nodes::of_lines)
    }

    /// The first of these nodes alone, with which the evaluation stops: there is one of [`Nodes`], or none.
    ///
    /// # Errors
    ///
    /// Those of [`find`](Self::find).
    ///
    /// ```
    /// use jsonpath_jp::Query;
    ///
    /// let first = Query::parse("$..a")?.find_first(br#"[{"a":1},{"a":2}]"#)?;
    /// assert_eq!(first.only().map(|node| node.path()), Some("$[0]['a']"));
    /// # Ok::<(), jsonpath_jp::Error>(())
    /// ```
    pub fn find_first(&self, document: &[u8]) -> Result<Nodes, Error> {
        self.lines(form::BOTH, FIRST, document).map(Nodes::of_lines)
    }

    /// The nodes that it selects in a document that is kept.
    ///
    /// # Errors
    ///
    /// Those of [`find`](Self::find), but for [`Error::Document`]; and [`Error::OtherNumbers`] where the document was
    /// read with other [`Numbers`] than the query.
    pub fn find_in(&self, document: &Document) -> Result<Nodes, Error> {
        self.lines_in(form::BOTH, ALL, document)
            .map(Nodes::of_lines)
    }

    /// The first of these nodes alone, with which the evaluation stops.
    ///
    /// # Errors
    ///
    /// Those of [`find_in`](Self::find_in).
    pub fn find_first_in(&self, document: &Document) -> Result<Nodes, Error> {
        self.lines_in(form::BOTH, FIRST, document)
            .map(Nodes::of_lines)
    }

    /// The nodes that it selects in a JSON text, one after another, looked for as they are asked for. The document is
    /// read at once, and kept as long as the iterator. Of the limits that of steps alone holds.
    ///
    /// # Errors
    ///
    /// [`Error::Document`] where the bytes are no document, [`Error::NoMemory`] and [`Error::NoStack`]. The iterator
    /// has [`Error::StepsUsedUp`], too.
    pub fn find_iter(&self, document: &[u8]) -> Result<FindIter<'_>, Error> {
        let document = Document::parse_with(document, self.numbers)?;
        Ok(FindIter::new(self, Asked::Own(document)))
    }

    /// The same of a document that is kept. Where it was read with other [`Numbers`] than the query, the iterator has
    /// [`Error::OtherNumbers`] alone.
    pub fn find_iter_in<'q>(&'q self, document: &'q Document) -> FindIter<'q> {
        FindIter::new(self, Asked::Lent(document))
    }

    /// Whether it selects any node in a JSON text. The evaluation stops at the first.
    ///
    /// # Errors
    ///
    /// Those of [`find`](Self::find).
    pub fn exists(&self, document: &[u8]) -> Result<bool, Error> {
        self.lines(form::PATHS, FIRST, document)
            .map(|lines| !lines.is_empty())
    }

    /// Whether it selects any node in a document that is kept. The evaluation stops at the first.
    ///
    /// # Errors
    ///
    /// Those of [`find_in`](Self::find_in).
    pub fn exists_in(&self, document: &Document) -> Result<bool, Error> {
        self.lines_in(form::PATHS, FIRST, document)
            .map(|lines| !lines.is_empty())
    }

    /// The canonical text: equal for equal queries, however they are spelled.
    ///
    /// # Errors
    ///
    /// [`Error::NoMemory`] and [`Error::NoStack`].
    ///
    /// ```
    /// use jsonpath_jp::Query;
    ///
    /// assert_eq!(Query::parse("$ .a [ ?(@.b==-0) ]")?.canonical()?, "$['a'][?@['b']==0]");
    /// # Ok::<(), jsonpath_jp::Error>(())
    /// ```
    pub fn canonical(&self) -> Result<String, Error> {
        let (report, text) = raw::canon(self.text.as_bytes(), self.number());
        self.answer(&report, text, &[])
    }

    /// The lines of the nodes asked for in a JSON text.
    fn lines(&self, form: u32, span: Span, document: &[u8]) -> Result<String, Error> {
        let (report, text) = match self.handle.try_lock() {
            Ok(mut query) => query.ask(document, form, span, self.limit),
            Err(TryLockError::Poisoned(query)) => {
                query.into_inner().ask(document, form, span, self.limit)
            }
            // Another thread asks the query, which is read anew so that none waits for it.
            Err(TryLockError::WouldBlock) => {
                let mut query = Handle::empty();
                let report = query.keep_query(self.text.as_bytes(), self.number());
                match report.status {
                    status::DONE => query.ask(document, form, span, self.limit),
                    _ => (report, String::new()),
                }
            }
        };
        self.answer(&report, text, document)
    }

    /// The lines of the nodes asked for in a document that is kept.
    fn lines_in(&self, form: u32, span: Span, document: &Document) -> Result<String, Error> {
        // Each call locks a query before a document, so that none waits for another's.
        let mut query = self.handle.lock().unwrap_or_else(PoisonError::into_inner);
        let (report, text) = query.ask_document(&mut document.lock(), form, span, self.limit);
        self.answer(&report, text, &[])
    }

    /// The lines of the next page of nodes in a document that is kept; none after the last.
    pub(crate) fn next_page(
        &self,
        cursor: &mut Cursor,
        document: &Document,
    ) -> Result<String, Error> {
        let mut query = self.handle.lock().unwrap_or_else(PoisonError::into_inner);
        let (report, text) = query.next_page(cursor, &mut document.lock(), self.limit.steps);
        self.answer(&report, text, &[])
    }

    /// The text of an outcome, or the error that it stands for.
    fn answer(&self, report: &Report, text: String, document: &[u8]) -> Result<String, Error> {
        answer(
            report,
            text,
            &self.text,
            self.number(),
            document,
            self.limit,
        )
    }

    /// The number of its functions and numbers.
    fn number(&self) -> u32 {
        profile::number(self.profile, self.numbers)
    }
}

/// The text of an outcome, or the error that it stands for.
pub(crate) fn answer(
    report: &Report,
    text: String,
    query: &str,
    profile: u32,
    document: &[u8],
    limit: Limit,
) -> Result<String, Error> {
    match report.status {
        status::DONE => Ok(text),
        status::TOO_MANY_NODES => Err(Error::TooManyNodes(limit.nodes)),
        status::TOO_MANY_BYTES => Err(Error::TooManyBytes(limit.bytes)),
        status::DOCUMENT_REFUSED => Err(Error::of_document(report, text, document, profile)),
        _ => Err(Error::of_query(report, query, profile)),
    }
}

impl FromStr for Query {
    type Err = Error;

    fn from_str(text: &str) -> Result<Self, Error> {
        Self::parse(text)
    }
}

impl fmt::Display for Query {
    fn fmt(&self, f: &mut fmt::Formatter<'_>) -> fmt::Result {
        f.write_str(&self.text)
    }
}

impl fmt::Debug for Query {
    fn fmt(&self, f: &mut fmt::Formatter<'_>) -> fmt::Result {
        f.debug_struct("Query")
            .field("text", &self.text)
            .field("profile", &self.profile)
            .field("numbers", &self.numbers)
            .field("limit", &self.limit())
            .field("max_nodes", &self.max_nodes())
            .field("max_bytes", &self.max_bytes())
            .finish_non_exhaustive()
    }
}
