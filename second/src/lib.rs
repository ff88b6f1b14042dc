//! A second implementation of the rules in docs/RULES.md (`model`), and what compares the library with it: a generator of cases (`gen`),
//! memory that shows a byte read past its end (`guard`), the library's calls (`calls`), real files (`samples`) and the comparison
//! (`families`).

pub mod calls;
pub mod families;
pub mod gen;
pub mod guard;
pub mod model;
pub mod samples;
