//! Files that are drawn by lot, the same on every day.

mod damage;
mod lists;
mod random;

pub use damage::damaged;
pub use lists::list;
pub use random::Random;
