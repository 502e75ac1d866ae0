//! What the tests share: the tool installed in a folder of its own, and what it says when it is started there.

// Each file of tests is a program of its own and uses a part of this.
#![allow(dead_code)]

pub mod installed;
pub mod lists;
pub mod memories;
pub mod said;
pub mod stand_ins;
pub mod trace;
