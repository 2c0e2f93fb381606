//! Which library this is.

/// The release, the start of the linked library's SHA-256 hash, and the logic of the kit that proved it. Verdicts under the same
/// identity are verdicts of the same library.
pub const IDENTITY: &str = concat!("zorambi ", env!("CARGO_PKG_VERSION"), ", ", env!("ZORAMBI_LIBRARY"));
