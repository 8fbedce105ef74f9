//! Code that all parts share.

pub mod area;
pub mod bench;
pub mod counted;
pub mod damage;
pub mod oracle;
pub mod padding;
pub mod random;
pub mod record;
pub mod report;
pub mod scratch;
pub mod shrink;
pub mod text;
pub mod told;
