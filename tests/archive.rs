//! The functions of the archives, as include/house.h declares them.
#![allow(dead_code)]

type In = *const u8;
type Out = *mut u8;

extern "C" {
    pub fn house_run(file: In, file_len: usize, r: Out, r_len: usize, a: Out, a_len: usize) -> u64;
    pub fn house_wall_run(wall: In, wall_len: usize, r: Out, r_len: usize, a: Out, a_len: usize) -> u64;
    pub fn house_fresh(parameters: In, parameters_len: usize, s: Out, s_len: usize) -> u64;
    pub fn house_change(s: Out, s_len: usize, inputs: In, inputs_len: usize, r: Out, r_len: usize, a: Out, a_len: usize)
        -> u64;
    pub fn house_move(s: Out, s_len: usize, stamp: u32, r: Out, r_len: usize) -> u64;
    pub fn house_run_to(file: In, file_len: usize, s: Out, s_len: usize, r: Out, r_len: usize, a: Out, a_len: usize) -> u64;
}
