//! Tools around the proved library: what stands between Cedar's formats and sheets. Nothing here is part of what is proved.

#![deny(missing_docs)]

pub mod cedar;
