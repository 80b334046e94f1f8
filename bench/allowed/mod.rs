//! What the checker of storms is made of: the rows that it reads, the versions of each group, the walk over an output's
//! lines, and storms of its own.

pub mod csv;
pub mod rows;
pub mod simulating;
pub mod versions;
pub mod walking;
