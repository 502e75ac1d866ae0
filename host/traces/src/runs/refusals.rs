//! A refusal writes nothing, also where earlier events would.

use super::bytes::*;
use super::{refused_run, RunRow};
use crate::answers::*;

pub fn runs() -> Vec<RunRow> {
    let of_16 = || bytes(count(0xa0, 8), count(0x10, 16), count(0x80, 16));
    let of_64 = || bytes(count(0xa0, 16), count(0x10, 64), count(0x80, 64));
    vec![
        refused_run("2 in a run", "one_byte_long", of_16(), SHAPE),
        refused_run("3 in a run", "events_1025", of_16(), TOO_MANY),
        refused_run("5 in a run", "kind_3", of_16(), unknown_kind(0)),
        refused_run("6 in a run", "load_with_a_body_of_9", of_16(), body_length(0)),
        refused_run("7 in a run", "store_size_3", of_16(), field(0)),
        refused_run("8 in a run", "load_shared_size_8_at_4", of_64(), alignment(0)),
        refused_run("9 in a run", "store_shared_1_at_16_of_16", of_16(), range(0)),
        refused_run("10 in a run", "first_of_two_clashing_loads", of_16(), clash(2, 0)),
        refused_run("the load before it is not written", "run_load_then_range", of_16(), range(1)),
        refused_run(
            "load, stores and copy before it are not done",
            "run_load_stores_then_clash",
            of_16(),
            clash(4, 3),
        ),
    ]
}
