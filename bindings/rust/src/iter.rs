//! The nodes that a query selects, one after another.

use crate::document::Document;
use crate::error::Error;
use crate::nodes::Node;
use crate::query::Query;
use crate::raw::Cursor;
use std::fmt;
use std::iter::FusedIterator;

/// A node with texts of its own.
#[derive(Clone, PartialEq, Eq, Hash)]
pub struct OwnedNode {
    /// The path, a tab, and the value.
    line: String,
    tab: usize,
}

/// The nodes that a query selects, looked for as they are asked for: the first is found without the others.
///
/// It asks for them in pages, in which all of them take no more steps than jp's page EMBED says (One node after
/// another). Where the query has a limit, no evaluation makes more; where all nodes need more, some of the first may
/// be given, and then the error. After an error there are no more. There is no limit of nodes or bytes, since whoever goes
/// through them can count them.
///
/// ```
/// use jsonpath_jp::Query;
///
/// let query = Query::parse("$[*]")?.with_limit(20.try_into().unwrap());
/// let many = [b"[0".as_slice(), &b",0".repeat(100_000), b"]"].concat();
/// let first = query.find_iter(&many)?.next().expect("a node")?;
/// assert_eq!((first.path(), first.value()), ("$[0]", "0"));
/// # Ok::<(), jsonpath_jp::Error>(())
/// ```
pub struct FindIter<'q> {
    query: &'q Query,
    document: Asked<'q>,
    /// The lines of a page, and where those begin that are left of it.
    page: String,
    at: usize,
    cursor: Cursor,
    is_last: bool,
}

/// A document that is kept elsewhere, or by the iterator.
pub(crate) enum Asked<'d> {
    Lent(&'d Document),
    Own(Document),
}

impl OwnedNode {
    fn of_line(line: &str) -> Option<Self> {
        let tab = line.find('\t')?;
        Some(OwnedNode {
            line: line.to_owned(),
            tab,
        })
    }

    /// The normalized path (RFC 9535, section 2.7).
    pub fn path(&self) -> &str {
        &self.line[..self.tab]
    }

    /// The value, as [`Node::value`] gives it.
    pub fn value(&self) -> &str {
        &self.line[self.tab + 1..]
    }

    /// The value where it is a whole number that fits, as [`Node::as_i128`] gives it.
    pub fn as_i128(&self) -> Option<i128> {
        self.as_node().as_i128()
    }

    /// The value as a double, where nothing is lost, as [`Node::as_f64`] gives it.
    pub fn as_f64(&self) -> Option<f64> {
        self.as_node().as_f64()
    }

    /// The double that is nearest to the value, as [`Node::as_f64_lossy`] gives it.
    pub fn as_f64_lossy(&self) -> Option<f64> {
        self.as_node().as_f64_lossy()
    }

    /// The JSON Pointer (RFC 6901) to it.
    pub fn pointer(&self) -> String {
        self.as_node().pointer()
    }

    /// The node, with these texts.
    pub fn as_node(&self) -> Node<'_> {
        Node::new(self.path(), self.value())
    }
}

impl<'q> FindIter<'q> {
    pub(crate) fn new(query: &'q Query, document: Asked<'q>) -> Self {
        FindIter {
            query,
            document,
            page: String::new(),
            at: 0,
            cursor: Cursor::default(),
            is_last: false,
        }
    }

    /// Asks for the next page.
    fn turn_page(&mut self) -> Result<(), Error> {
        let document = match &self.document {
            Asked::Lent(document) => document,
            Asked::Own(document) => document,
        };
        self.at = 0;
        self.page.clear();
        self.is_last = true;
        self.page = self.query.next_page(&mut self.cursor, document)?;
        self.is_last = self.page.is_empty();
        Ok(())
    }
}

impl Iterator for FindIter<'_> {
    type Item = Result<OwnedNode, Error>;

    fn next(&mut self) -> Option<Self::Item> {
        if self.at == self.page.len() && !self.is_last {
            if let Err(fault) = self.turn_page() {
                return Some(Err(fault));
            }
        }
        let (line, _) = self.page[self.at..].split_once('\n')?;
        self.at += line.len() + 1;
        OwnedNode::of_line(line).map(Ok)
    }
}

impl FusedIterator for FindIter<'_> {}

impl fmt::Debug for OwnedNode {
    fn fmt(&self, f: &mut fmt::Formatter<'_>) -> fmt::Result {
        f.debug_struct("OwnedNode")
            .field("path", &self.path())
            .field("value", &self.value())
            .finish()
    }
}

impl fmt::Debug for FindIter<'_> {
    fn fmt(&self, f: &mut fmt::Formatter<'_>) -> fmt::Result {
        f.debug_struct("FindIter")
            .field("query", self.query)
            .finish_non_exhaustive()
    }
}
