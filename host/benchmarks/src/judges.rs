//! The two judges that are measured.

use crate::simple;
use wrapper::Answer;

pub struct Judge {
    pub name: &'static str,
    pub judge: fn(&[u8]) -> Answer,
}

pub const SIMPLE: Judge = Judge {
    name: "simple",
    judge: simple::judge,
};

pub const PROVED: Judge = Judge {
    name: "proved",
    judge: wrapper::judge,
};
