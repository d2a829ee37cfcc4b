//! The C interface, as `gyodaebeun.h` declares it, and the one place where slices become pointers:
//! for each entry a function that makes its call with what it is lent, and gives the number of the
//! refusal, 0 if the call was accepted. Place and report are stored whatever the answer.

#![expect(clippy::too_many_arguments, reason = "as many as the entries have")]

use crate::Run;

// What a caller must keep is said in the header.
unsafe extern "C" {
    pub fn gyodaebeun_slacks(
        nodes: u32,
        slots: u32,
        demand: *const u32,
        demand_length: usize,
        slacks: *mut i32,
        slacks_length: usize,
        place: *mut u32,
    ) -> u32;

    pub fn gyodaebeun_plan(
        nodes: u32,
        slots: u32,
        rule: u32,
        demand: *const u32,
        demand_length: usize,
        kept: *mut u32,
        kept_length: usize,
        withdrawn: *mut u32,
        withdrawn_length: usize,
        schedule: *mut u8,
        schedule_length: usize,
        report: *mut [u32; 4],
    ) -> u32;

    pub fn gyodaebeun_fresh(
        run: *mut Run,
        nodes: u32,
        slots: u32,
        limit: u32,
        rule: u32,
        waiting: *mut u32,
        waiting_length: usize,
        posted: *mut u64,
        posted_length: usize,
        sent: *mut u64,
        sent_length: usize,
        dropped: *mut u64,
        dropped_length: usize,
        place: *mut u32,
    ) -> u32;

    pub fn gyodaebeun_post(
        run: *mut Run,
        arrivals: *const u32,
        arrivals_length: usize,
        waiting: *mut u32,
        waiting_length: usize,
        posted: *mut u64,
        posted_length: usize,
        sent: *const u64,
        sent_length: usize,
        dropped: *mut u64,
        dropped_length: usize,
        place: *mut u32,
    ) -> u32;

    pub fn gyodaebeun_frame(
        run: *mut Run,
        waiting: *mut u32,
        waiting_length: usize,
        posted: *const u64,
        posted_length: usize,
        sent: *mut u64,
        sent_length: usize,
        dropped: *const u64,
        dropped_length: usize,
        kept: *mut u32,
        kept_length: usize,
        withdrawn: *mut u32,
        withdrawn_length: usize,
        schedule: *mut u8,
        schedule_length: usize,
        report: *mut [u32; 4],
    ) -> u32;

    pub fn gyodaebeun_write_scenario(
        nodes: u32,
        slots: u32,
        limit: u32,
        rule: u32,
        kinds: *const u32,
        kinds_length: usize,
        cells: *const u32,
        cells_length: usize,
        file: *mut u8,
        file_length: usize,
        report: *mut [u32; 2],
    ) -> u32;

    pub fn gyodaebeun_play_scenario(
        file: *const u8,
        file_length: usize,
        text: *mut u8,
        text_length: usize,
        report: *mut [u32; 2],
    ) -> u32;
}

// What the header asks of a caller is so in every call below: each pointer comes with the length of
// the slice that it was taken from, and nothing that is written overlaps anything, since slices,
// record, place and report are borrowed exclusively, but for slices that are only read.
//
// They are inlined, so that the stack of a call is measured without them.

#[inline]
pub fn slacks(nodes: u32, slots: u32, demand: &[u32], slacks: &mut [i32], place: &mut u32) -> u32 {
    unsafe {
        gyodaebeun_slacks(
            nodes,
            slots,
            demand.as_ptr(),
            demand.len(),
            slacks.as_mut_ptr(),
            slacks.len(),
            place,
        )
    }
}

#[inline]
pub fn plan(
    nodes: u32,
    slots: u32,
    rule: u32,
    demand: &[u32],
    kept: &mut [u32],
    withdrawn: &mut [u32],
    schedule: &mut [u8],
    report: &mut [u32; 4],
) -> u32 {
    unsafe {
        gyodaebeun_plan(
            nodes,
            slots,
            rule,
            demand.as_ptr(),
            demand.len(),
            kept.as_mut_ptr(),
            kept.len(),
            withdrawn.as_mut_ptr(),
            withdrawn.len(),
            schedule.as_mut_ptr(),
            schedule.len(),
            report,
        )
    }
}

#[inline]
pub fn fresh(
    run: &mut Run,
    nodes: u32,
    slots: u32,
    limit: u32,
    rule: u32,
    waiting: &mut [u32],
    posted: &mut [u64],
    sent: &mut [u64],
    dropped: &mut [u64],
    place: &mut u32,
) -> u32 {
    unsafe {
        gyodaebeun_fresh(
            run,
            nodes,
            slots,
            limit,
            rule,
            waiting.as_mut_ptr(),
            waiting.len(),
            posted.as_mut_ptr(),
            posted.len(),
            sent.as_mut_ptr(),
            sent.len(),
            dropped.as_mut_ptr(),
            dropped.len(),
            place,
        )
    }
}

#[inline]
pub fn post(
    run: &mut Run,
    arrivals: &[u32],
    waiting: &mut [u32],
    posted: &mut [u64],
    sent: &[u64],
    dropped: &mut [u64],
    place: &mut u32,
) -> u32 {
    unsafe {
        gyodaebeun_post(
            run,
            arrivals.as_ptr(),
            arrivals.len(),
            waiting.as_mut_ptr(),
            waiting.len(),
            posted.as_mut_ptr(),
            posted.len(),
            sent.as_ptr(),
            sent.len(),
            dropped.as_mut_ptr(),
            dropped.len(),
            place,
        )
    }
}

#[inline]
pub fn frame(
    run: &mut Run,
    waiting: &mut [u32],
    posted: &[u64],
    sent: &mut [u64],
    dropped: &[u64],
    kept: &mut [u32],
    withdrawn: &mut [u32],
    schedule: &mut [u8],
    report: &mut [u32; 4],
) -> u32 {
    unsafe {
        gyodaebeun_frame(
            run,
            waiting.as_mut_ptr(),
            waiting.len(),
            posted.as_ptr(),
            posted.len(),
            sent.as_mut_ptr(),
            sent.len(),
            dropped.as_ptr(),
            dropped.len(),
            kept.as_mut_ptr(),
            kept.len(),
            withdrawn.as_mut_ptr(),
            withdrawn.len(),
            schedule.as_mut_ptr(),
            schedule.len(),
            report,
        )
    }
}

#[inline]
pub fn write_scenario(
    nodes: u32,
    slots: u32,
    limit: u32,
    rule: u32,
    kinds: &[u32],
    cells: &[u32],
    file: &mut [u8],
    report: &mut [u32; 2],
) -> u32 {
    unsafe {
        gyodaebeun_write_scenario(
            nodes,
            slots,
            limit,
            rule,
            kinds.as_ptr(),
            kinds.len(),
            cells.as_ptr(),
            cells.len(),
            file.as_mut_ptr(),
            file.len(),
            report,
        )
    }
}

#[inline]
pub fn play_scenario(file: &[u8], text: &mut [u8], report: &mut [u32; 2]) -> u32 {
    unsafe {
        gyodaebeun_play_scenario(
            file.as_ptr(),
            file.len(),
            text.as_mut_ptr(),
            text.len(),
            report,
        )
    }
}
