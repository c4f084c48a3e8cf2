//! `MarketMerge` for Rust hosts: several market-data connections, one book per market.
//!
//! The types and functions are those of the original `feed_merge` module, generic over the host's message type. The work is done by
//! the proved calls of this repository, linked as static libraries (`crates/exports`, `crates/owned`). See README.md for how to switch
//! and for what differs.
//!
//! [`Store`] is a market by numbers: the proved calls as document 01 has them, for support tools and for hosts that number their messages
//! themselves. [`EventKey::of_json`] is the key of a JSON message (`crates/json_exports`). [`Depth`] is a token's price levels, with the
//! functions of the original `market_data` module (`crates/depth_exports`). These two are the features `json` and `depth`, both on by
//! default; each links one archive more.
#![deny(missing_docs, unsafe_op_in_unsafe_fn)]
#![warn(clippy::undocumented_unsafe_blocks)]

pub mod codes;
#[cfg(feature = "depth")]
mod depth;
mod ffi;
#[cfg(feature = "json")]
mod json;
mod kept;
mod key;
mod limits;
mod mapped;
mod merge;
mod reading;
mod refusal;
mod store;
mod types;

#[cfg(feature = "depth")]
pub use depth::{Depth, LevelRefusal};
#[cfg(feature = "json")]
pub use json::{canonical_bytes, JsonRefusal};
pub use key::EventKey;
pub use limits::Limits;
pub use merge::MarketMerge;
pub use reading::{Kind, LineReading, Reading};
pub use refusal::Refusal;
pub use store::{Store, Told};
pub use types::{
    Applied, ConnId, Entry, Expired, Lost, Repeated, Step, ALIGN_RUN, ALIGN_TIMEOUT, LOG_KEEP,
    MAX_HELD, QUIET,
};

/// Names the types of this crate for one message type, as the original module has them: without a parameter, and with an entry for
/// each copy of a print that is to be applied.
///
/// ```
/// mod feed_merge {
///     pollendrift::drop_in!(String);
/// }
/// use feed_merge::{MarketMerge, Step};
///
/// struct Market {
///     merge: MarketMerge,
/// }
///
/// fn applied(step: Step) -> usize {
///     match step {
///         Step::Apply(out) => out.len(),
///         _ => 0,
///     }
/// }
///
/// let mut market = Market { merge: MarketMerge::default() };
/// let now = std::time::Instant::now();
/// let step = market.merge.snapshot(1, 0, &"not subscribed".to_string(), now);
/// assert_eq!(applied(step), 0);
/// ```
#[macro_export]
macro_rules! drop_in {
    ($message:ty) => {
        #[allow(unused_imports)]
        pub use $crate::{
            ConnId, EventKey, Limits, Refusal, ALIGN_RUN, ALIGN_TIMEOUT, LOG_KEEP, MAX_HELD, QUIET,
        };
        /// One market's merge of its connections.
        #[allow(dead_code)]
        pub type MarketMerge = $crate::MarketMerge<$message>;
        /// A message to apply.
        #[allow(dead_code)]
        pub type Applied = $crate::Applied<$message>;
        /// What to do with a delivered message.
        #[allow(dead_code)]
        pub type Step = $crate::Step<Applied>;
        /// What became of the book.
        #[allow(dead_code)]
        pub type Lost = $crate::Lost<Applied>;
        /// What a tick did.
        #[allow(dead_code)]
        pub type Expired = $crate::Expired<Applied>;
    };
}
