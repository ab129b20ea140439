//! Many queries over one document.

use crate::error::Error;
use crate::nodes::Nodes;
use crate::numbers::{form, status};
use crate::profile::{self, Numbers, Profile};
use crate::query::answer;
use crate::raw::{self, Limit, Question};
use std::num::NonZeroU64;

/// Many queries, to be asked of a document that is read once for all of them, and once more where what they select
/// takes more than 4 KiB.
///
/// One that is refused stops no other:
///
/// ```
/// use jsonpath_jp::Queries;
///
/// let answers = Queries::new(["$.a[0]", "$.a[01]", "$.b"]).find(br#"{"a":[1,2]}"#);
/// assert_eq!(answers[0].as_ref().unwrap().only().unwrap().value(), "1");
/// assert!(answers[1].is_err());
/// assert!(answers[2].as_ref().unwrap().is_empty());
/// ```
#[derive(Clone, Debug, Default, PartialEq, Eq)]
pub struct Queries {
    text: String,
    /// Where each ends in the text.
    ends: Vec<usize>,
    profile: Profile,
    numbers: Numbers,
    limit: Limit,
}

impl Queries {
    /// The queries, which are not read yet, with the functions of RFC 9535 and exact decimals.
    pub fn new<Q: AsRef<str>>(queries: impl IntoIterator<Item = Q>) -> Self {
        Self::with_profile(queries, Profile::Standard)
    }

    /// The queries, which are not read yet, with the functions of the profile and exact decimals.
    pub fn with_profile<Q: AsRef<str>>(
        queries: impl IntoIterator<Item = Q>,
        profile: Profile,
    ) -> Self {
        let mut made = Queries {
            profile,
            ..Queries::default()
        };
        for query in queries {
            made.text.push_str(query.as_ref());
            made.ends.push(made.text.len());
        }
        made
    }

    /// The queries with these numbers, which the document has too.
    ///
    /// ```
    /// use jsonpath_jp::{Numbers, Queries};
    ///
    /// let queries = Queries::new(["$[0]"]);
    /// assert!(queries.find(b"[8.95]")[0].is_ok());
    /// assert!(queries.with_numbers(Numbers::Whole).find(b"[8.95]")[0].is_err());
    /// ```
    #[must_use]
    pub fn with_numbers(mut self, numbers: Numbers) -> Self {
        self.numbers = numbers;
        self
    }

    /// The queries with a limit of steps, the whole of it for each.
    #[must_use]
    pub fn with_limit(mut self, steps: NonZeroU64) -> Self {
        self.limit.steps = steps.get();
        self
    }

    /// The queries with a most of nodes, as many for each.
    #[must_use]
    pub fn with_max_nodes(mut self, nodes: NonZeroU64) -> Self {
        self.limit.nodes = nodes.get();
        self
    }

    /// The queries with a most of bytes of an answer, as many for each.
    #[must_use]
    pub fn with_max_bytes(mut self, bytes: NonZeroU64) -> Self {
        self.limit.bytes = bytes.get();
        self
    }

    /// What each selects in the JSON text, or its error, in the order of the queries.
    ///
    /// # Errors
    ///
    /// Each query has its own: [`Error::Query`] where it is refused, whatever the bytes are; else [`Error::Document`]
    /// where they are no document, [`Error::StepsUsedUp`], [`Error::TooManyNodes`] and [`Error::TooManyBytes`] where
    /// there is such a limit and the query goes beyond it, [`Error::NoMemory`] and [`Error::NoStack`].
    ///
    /// A query that names one location makes no steps in [`Query::find`](crate::Query::find), and here a few for each
    /// name or index:
    ///
    /// ```
    /// use jsonpath_jp::{Error, Queries, Query};
    ///
    /// let limit = 1.try_into().unwrap();
    /// assert_eq!(Query::parse("$[1]")?.with_limit(limit).find(b"[1,2]")?.len(), 1);
    /// let answers = Queries::new(["$[1]"]).with_limit(limit).find(b"[1,2]");
    /// assert_eq!(answers, [Err(Error::StepsUsedUp(1))]);
    /// # Ok::<(), Error>(())
    /// ```
    pub fn find(&self, document: &[u8]) -> Vec<Result<Nodes, Error>> {
        let profile = profile::number(self.profile, self.numbers);
        let mut questions: Vec<_> = self.spans().map(question).collect();
        let written = raw::eval_many(
            self.text.as_bytes(),
            &mut questions,
            document,
            form::BOTH,
            profile,
            self.limit,
        );
        let mut rest = written.as_str();
        // Why the document is refused is asked for once, since that reads it again.
        let mut refusal: Option<Error> = None;
        let mut answers = Vec::with_capacity(questions.len());
        for (question, (start, end)) in questions.iter().zip(self.spans()) {
            let (text, after) = rest.split_at(question.report.length);
            rest = after;
            let report = &question.report;
            let answer = match &refusal {
                Some(fault) if report.status == status::DOCUMENT_REFUSED => Err(fault.clone()),
                _ => {
                    let query = &self.text[start..end];
                    let text = text.to_owned();
                    answer(report, text, query, profile, document, self.limit)
                }
            };
            if let Err(fault @ Error::Document(_)) = &answer {
                refusal.get_or_insert_with(|| fault.clone());
            }
            answers.push(answer.map(Nodes::of_lines));
        }
        answers
    }

    /// Where each begins and ends.
    fn spans(&self) -> impl Iterator<Item = (usize, usize)> + '_ {
        let starts = std::iter::once(0).chain(self.ends.iter().copied());
        starts.zip(self.ends.iter().copied())
    }
}

fn question((start, end): (usize, usize)) -> Question {
    Question {
        start,
        size: end - start,
        ..Question::default()
    }
}
