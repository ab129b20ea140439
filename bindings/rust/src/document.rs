//! A document that is kept.

use crate::error::Error;
use crate::numbers::status;
use crate::profile::{self, Numbers, Profile};
use crate::raw::Handle;
use std::fmt;
use std::sync::{Mutex, MutexGuard, PoisonError};

/// A document that is read once and asked many queries.
///
/// It keeps a copy of its text. Queries over it take turns, from whichever threads they come. Those that have other
/// numbers than it was read with are not asked of it, and give [`Error::OtherNumbers`].
pub struct Document {
    numbers: Numbers,
    handle: Mutex<Handle>,
}

impl Document {
    /// Reads the JSON text, whose numbers are exact decimals.
    ///
    /// # Errors
    ///
    /// [`Error::Document`] where the bytes are no document, [`Error::NoMemory`] and [`Error::NoStack`].
    pub fn parse(bytes: &[u8]) -> Result<Self, Error> {
        Self::parse_with(bytes, Numbers::Decimal)
    }

    /// Reads the JSON text with these numbers, to be asked queries that have the same.
    ///
    /// # Errors
    ///
    /// Those of [`parse`](Self::parse).
    ///
    /// ```
    /// use jsonpath_jp::{Document, Error, Numbers, Profile, Query};
    ///
    /// let document = Document::parse_with(b"[1,2]", Numbers::Whole)?;
    /// let query = Query::parse_with("$[?@ > 1]", Profile::Standard, Numbers::Whole)?;
    /// assert_eq!(query.find_in(&document)?.len(), 1);
    /// let decimals = Query::parse("$[?@ > 1.5]")?;
    /// assert_eq!(decimals.find_in(&document), Err(Error::OtherNumbers(Numbers::Whole)));
    /// # Ok::<(), Error>(())
    /// ```
    pub fn parse_with(bytes: &[u8], numbers: Numbers) -> Result<Self, Error> {
        let mut handle = Handle::empty();
        let profile = profile::number(Profile::Standard, numbers);
        let (report, text) = handle.keep_document(bytes, profile);
        match report.status {
            status::DONE => Ok(Document {
                numbers,
                handle: Mutex::new(handle),
            }),
            _ => Err(Error::of_document(&report, text, bytes, profile)),
        }
    }

    /// The numbers with which it was read.
    pub fn numbers(&self) -> Numbers {
        self.numbers
    }

    pub(crate) fn lock(&self) -> MutexGuard<'_, Handle> {
        // No call leaves a handle half done.
        self.handle.lock().unwrap_or_else(PoisonError::into_inner)
    }
}

impl fmt::Debug for Document {
    fn fmt(&self, f: &mut fmt::Formatter<'_>) -> fmt::Result {
        f.debug_struct("Document")
            .field("numbers", &self.numbers)
            .finish_non_exhaustive()
    }
}
