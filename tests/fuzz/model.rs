//! The second model behind the calls of include/house.h, for the fuzz tests to compare with. A static library.

#[path = "../live.rs"]
mod live;
#[path = "../model.rs"]
mod model;
#[path = "../wall.rs"]
mod wall;

use std::slice::{from_raw_parts, from_raw_parts_mut};

/// The call that has this place in enum which of calls.h, over a list, a state, records and answers; it leaves alone what it does not take.
///
/// # Safety
/// As include/house.h asks, and no pointer is NULL.
#[no_mangle]
pub unsafe extern "C" fn model_call(
    which: u32,
    l: *const u8,
    ll: usize,
    s: *mut u8,
    sl: usize,
    stamp: u32,
    r: *mut u8,
    rl: usize,
    a: *mut u8,
    al: usize,
) -> u64 {
    let (list, state) = (from_raw_parts(l, ll), from_raw_parts_mut(s, sl));
    let (records, answers) = (from_raw_parts_mut(r, rl), from_raw_parts_mut(a, al));
    match which {
        0 => model::run_into(list, records, answers),
        1 => wall::wall_run_into(list, records, answers),
        2 => live::fresh_into(list, state),
        3 => live::change_into(state, list, records, answers),
        4 => live::move_into(state, stamp, records),
        _ => live::run_to_into(list, state, records, answers),
    }
}
