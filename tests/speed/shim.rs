// What the edited original uses in the place of serde_json and tracing. A message is a number, so that a copy costs nothing.
pub use std::time::Instant;

pub type Value = u64;

pub mod tracing {
    macro_rules! warn_nothing {
        ($($any:tt)*) => {};
    }
    pub(crate) use warn_nothing as warn;
}
