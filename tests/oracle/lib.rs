// The parts of the oracle; tests elsewhere take them in by #[path].
pub mod answers;
pub mod base;
pub mod fast;
pub mod grammar;
pub mod slow;
pub mod table;
