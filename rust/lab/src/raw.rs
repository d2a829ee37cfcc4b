//! The C interface of the archive. What a layer asks of its callers is not tested here.

unsafe extern "C" {
    pub fn lab_fair_cut(
        n: usize,
        cap: *const u32,
        cap_length: usize,
        demand: *const u32,
        demand_length: usize,
        kept: *mut u32,
        kept_length: usize,
    );

    pub fn lab_largest(
        n: usize,
        bound: *const u32,
        bound_length: usize,
        headroom: *mut u32,
        headroom_length: usize,
        a: *mut u32,
        a_length: usize,
        marks: *mut u8,
        marks_length: usize,
    );

    pub fn lab_withdraw(
        n: usize,
        cap: *const u32,
        cap_length: usize,
        demand: *const u32,
        demand_length: usize,
        withdrawn: *mut u32,
        withdrawn_length: usize,
        marks: *mut u8,
        marks_length: usize,
    );

    pub fn lab_keep(
        n: usize,
        cap: *const u32,
        cap_length: usize,
        demand: *const u32,
        demand_length: usize,
        withdrawn: *const u32,
        withdrawn_length: usize,
        kept: *mut u32,
        kept_length: usize,
    );

    pub fn lab_place(
        n: usize,
        l: usize,
        kept: *mut u32,
        kept_length: usize,
        schedule: *mut u8,
        schedule_length: usize,
    ) -> u32;
}
