//! Which functions a query may call, and which numbers it has.

use crate::numbers::profile;

/// Which functions a query may call.
#[derive(Clone, Copy, Debug, Default, PartialEq, Eq, Hash)]
pub enum Profile {
    /// Those of RFC 9535.
    #[default]
    Standard,
    /// Also `distinct`, which gives each node of a nodelist once.
    Extended,
}

/// Which numbers a query has, and the documents that it is asked of. None is rounded.
///
/// ```
/// use jsonpath_jp::{DocumentKind, Error, Numbers, Profile, Query};
///
/// let prices = br#"[{"price":8.95},{"price":22.99}]"#;
/// assert_eq!(Query::parse("$[?@.price < 10]")?.find(prices)?.len(), 1);
/// let whole = Query::parse_with("$[?@.price < 10]", Profile::Standard, Numbers::Whole)?;
/// let Err(Error::Document(fault)) = whole.find(prices) else { panic!("it is refused") };
/// assert_eq!((fault.kind(), fault.path()), (DocumentKind::NotWhole, Some("$[0]['price']")));
/// # Ok::<(), Error>(())
/// ```
#[derive(Clone, Copy, Debug, Default, PartialEq, Eq, Hash)]
pub enum Numbers {
    /// Exact decimals: at most 38 digits, times a power of ten from -1,000,000 to 1,000,000.
    #[default]
    Decimal,
    /// Whole numbers from -(2^63) to (2^64)-1. A document with any other number is refused, and so is a query.
    Whole,
}

/// The number that the library has for a choice of functions and one of numbers.
pub(crate) fn number(profile: Profile, numbers: Numbers) -> u32 {
    match (profile, numbers) {
        (Profile::Standard, Numbers::Whole) => profile::STANDARD,
        (Profile::Extended, Numbers::Whole) => profile::EXTENDED,
        (Profile::Standard, Numbers::Decimal) => profile::DECIMAL,
        (Profile::Extended, Numbers::Decimal) => profile::EXTENDED_DECIMAL,
    }
}

impl Numbers {
    /// Those that a query does not have, whose profile has that number.
    pub(crate) fn other_than(profile: u32) -> Self {
        match profile {
            profile::STANDARD | profile::EXTENDED => Numbers::Decimal,
            _ => Numbers::Whole,
        }
    }

    /// Their name in a sentence.
    pub(crate) fn name(self) -> &'static str {
        match self {
            Numbers::Decimal => "decimals",
            Numbers::Whole => "whole numbers",
        }
    }
}
