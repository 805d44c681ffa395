//! Test vectors: scripts and pairs of texts, made from a seed.

mod changes;
mod damage;
mod mistakes;
mod pairs;
mod scripts;
mod texts;

pub use changes::{changes, loads, sample};
pub use mistakes::mistakes;
pub use pairs::{framed, pairs, parted, unframed};
pub use scripts::{parts, script};
pub use texts::texts;
