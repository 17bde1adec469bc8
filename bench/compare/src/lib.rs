//! The proved archive as a core that others can be compared with.

pub mod archive;
