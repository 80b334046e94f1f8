//! What the plain programs of this folder share: hashing, groups and their records, owners, nodes, the printed lines.
//! Nothing of it is proved, and it takes nothing of the crates.

pub mod flows;
pub mod groups;
pub mod hashing;
pub mod lines;
pub mod nodes;
pub mod owners;
