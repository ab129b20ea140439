//! The nodes that a query selects.

use crate::decimal;
use crate::raw;
use std::fmt;
use std::iter::FusedIterator;

/// The nodes that a query selects in a document, in the order of RFC 9535; one that is selected twice stands
/// there twice.
///
/// ```
/// use jsonpath_jp::Query;
///
/// let nodes = Query::parse("$[0,0]")?.find(b"[1,2]")?;
/// assert_eq!(nodes.iter().map(|node| node.path()).collect::<Vec<_>>(), ["$[0]", "$[0]"]);
/// # Ok::<(), jsonpath_jp::Error>(())
/// ```
#[derive(Clone, Default, PartialEq, Eq, Hash)]
pub struct Nodes {
    /// A line for each: the path, a tab, and the value. Neither has a newline, and the path has no tab.
    lines: String,
}

/// A node: a location in the document with the value there.
#[derive(Clone, Copy, Debug, PartialEq, Eq, Hash)]
pub struct Node<'n> {
    path: &'n str,
    value: &'n str,
}

/// The nodes, one after the other.
#[derive(Clone, Debug)]
pub struct Iter<'n> {
    rest: &'n str,
}

impl Nodes {
    pub(crate) fn of_lines(lines: String) -> Self {
        Nodes { lines }
    }

    /// The nodes, in order.
    pub fn iter(&self) -> Iter<'_> {
        Iter { rest: &self.lines }
    }

    /// The first node, if there is any.
    pub fn first(&self) -> Option<Node<'_>> {
        self.iter().next()
    }

    /// The only node, if there is exactly one.
    pub fn only(&self) -> Option<Node<'_>> {
        let mut nodes = self.iter();
        nodes.next().filter(|_| nodes.next().is_none())
    }

    /// Whether no node is selected.
    pub fn is_empty(&self) -> bool {
        self.lines.is_empty()
    }

    /// How many nodes there are, which are counted for it.
    pub fn len(&self) -> usize {
        self.iter().count()
    }
}

impl<'n> Node<'n> {
    pub(crate) fn new(path: &'n str, value: &'n str) -> Self {
        Node { path, value }
    }

    /// The normalized path (RFC 9535, section 2.7).
    pub fn path(&self) -> &'n str {
        self.path
    }

    /// The value, as a compact JSON text with the members of objects sorted by name. Numbers have all their digits, in
    /// one spelling for each number (RFC 8785, section 3.2.2.3): 8.950 is `8.95`, 1.0 is `1`, and 1e400 is `1e+400`.
    pub fn value(&self) -> &'n str {
        self.value
    }

    /// The value where it is a whole number that fits: exact, however it is written.
    ///
    /// ```
    /// use jsonpath_jp::Query;
    ///
    /// let nodes = Query::parse("$[*]")?.find(b"[100, 1e30, 8.0, 8.95, 1e400, \"8\"]")?;
    /// let whole: Vec<_> = nodes.iter().map(|node| node.as_i128()).collect();
    /// assert_eq!(whole, [Some(100), Some(10_i128.pow(30)), Some(8), None, None, None]);
    /// # Ok::<(), jsonpath_jp::Error>(())
    /// ```
    pub fn as_i128(&self) -> Option<i128> {
        decimal::whole(self.value)
    }

    /// The value as a double, where nothing is lost: the double's shortest text is the same number.
    ///
    /// ```
    /// use jsonpath_jp::Query;
    ///
    /// let nodes = Query::parse("$[*]")?.find(b"[8.950, 0.1, 9007199254740993, 1e400]")?;
    /// let exact: Vec<_> = nodes.iter().map(|node| node.as_f64()).collect();
    /// assert_eq!(exact, [Some(8.95), Some(0.1), None, None]);
    /// # Ok::<(), jsonpath_jp::Error>(())
    /// ```
    pub fn as_f64(&self) -> Option<f64> {
        decimal::double(self.value)
    }

    /// The double that is nearest to the value, where it is a number; infinite where it is beyond all doubles.
    ///
    /// ```
    /// use jsonpath_jp::Query;
    ///
    /// let nodes = Query::parse("$[*]")?.find(b"[9007199254740993, -1e400, \"1\"]")?;
    /// let near: Vec<_> = nodes.iter().map(|node| node.as_f64_lossy()).collect();
    /// assert_eq!(near, [Some(9007199254740992.0), Some(f64::NEG_INFINITY), None]);
    /// # Ok::<(), jsonpath_jp::Error>(())
    /// ```
    pub fn as_f64_lossy(&self) -> Option<f64> {
        decimal::nearest_double(self.value)
    }

    /// The JSON Pointer (RFC 6901) to it.
    ///
    /// ```
    /// use jsonpath_jp::Query;
    ///
    /// let nodes = Query::parse("$..b")?.find(br#"{"a/b":[{"b":1}]}"#)?;
    /// assert_eq!(nodes.only().map(|node| node.pointer()).as_deref(), Some("/a~1b/0/b"));
    /// # Ok::<(), jsonpath_jp::Error>(())
    /// ```
    pub fn pointer(&self) -> String {
        raw::pointer(self.path)
    }
}

impl<'n> Iterator for Iter<'n> {
    type Item = Node<'n>;

    fn next(&mut self) -> Option<Node<'n>> {
        let (line, rest) = self.rest.split_once('\n')?;
        let (path, value) = line.split_once('\t')?;
        self.rest = rest;
        Some(Node { path, value })
    }

    fn size_hint(&self) -> (usize, Option<usize>) {
        // The shortest line is `$`, a tab, a digit and a newline.
        (
            usize::from(!self.rest.is_empty()),
            Some(self.rest.len() / 4),
        )
    }
}

impl FusedIterator for Iter<'_> {}

impl<'n> IntoIterator for &'n Nodes {
    type Item = Node<'n>;
    type IntoIter = Iter<'n>;

    fn into_iter(self) -> Iter<'n> {
        self.iter()
    }
}

impl fmt::Debug for Nodes {
    fn fmt(&self, f: &mut fmt::Formatter<'_>) -> fmt::Result {
        f.debug_list().entries(self).finish()
    }
}
