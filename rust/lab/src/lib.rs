//! The proved planner's inner layers, called from Rust for the comparisons and the benchmark; no
//! part of the product. A layer is proved for callers who give what it asks. That is tested here,
//! and a call without it panics; only what [`keep`] asks of `withdrawn` is left to the caller.
//!
//! Tables as everywhere: pair (i,j) is cell i×N+j, lines 0 to N−1 are the rows, line N+j is column
//! j. A longer table than needed is accepted; its extra cells are neither read nor changed.

mod raw;

/// The slots that each pair keeps under the fair rule, from its demands and the capacities of the
/// 2N lines.
pub fn fair_cut(n: usize, capacity: &[u32], demand: &[u32], kept: &mut [u32]) {
    ask_demands(n, demand);
    ask_capacities(n, capacity);
    ask_cells(n, kept);
    // Each pointer comes with the length of the slice it was taken from; so in every call here.
    unsafe {
        raw::lab_fair_cut(
            n,
            capacity.as_ptr(),
            capacity.len(),
            demand.as_ptr(),
            demand.len(),
            kept.as_mut_ptr(),
            kept.len(),
        );
    }
}

/// Of all matrices that are at most `bound` at each cell and whose line sums are at most the
/// ceilings in `headroom`, one with the greatest total, in `a`, and in `marks` a byte for each line
/// that proves it so. Each ceiling gives way to what its line may still take.
pub fn largest(n: usize, bound: &[u32], headroom: &mut [u32], a: &mut [u32], marks: &mut [u8]) {
    ask_demands(n, bound);
    ask_cells(n, a);
    ask_lines(n, headroom);
    ask_lines(n, marks);
    unsafe {
        raw::lab_largest(
            n,
            bound.as_ptr(),
            bound.len(),
            headroom.as_mut_ptr(),
            headroom.len(),
            a.as_mut_ptr(),
            a.len(),
            marks.as_mut_ptr(),
            marks.len(),
        );
    }
}

/// A greatest withdrawn matrix, and in `marks` a byte for each line that proves it so.
pub fn withdraw(
    n: usize,
    capacity: &[u32],
    demand: &[u32],
    withdrawn: &mut [u32],
    marks: &mut [u8],
) {
    ask_demands(n, demand);
    ask_capacities(n, capacity);
    ask_cells(n, withdrawn);
    ask_lines(n, marks);
    unsafe {
        raw::lab_withdraw(
            n,
            capacity.as_ptr(),
            capacity.len(),
            demand.as_ptr(),
            demand.len(),
            withdrawn.as_mut_ptr(),
            withdrawn.len(),
            marks.as_mut_ptr(),
            marks.len(),
        );
    }
}

/// The slots that each pair keeps under the least rule, from its demand and what was withdrawn.
///
/// # Safety
///
/// `withdrawn` must hold a greatest withdrawn matrix for this demand and these capacities, as
/// [`withdraw`] finds one. This alone is not tested.
pub unsafe fn keep(
    n: usize,
    capacity: &[u32],
    demand: &[u32],
    withdrawn: &[u32],
    kept: &mut [u32],
) {
    ask_demands(n, demand);
    ask_capacities(n, capacity);
    ask_cells(n, withdrawn);
    ask_cells(n, kept);
    unsafe {
        raw::lab_keep(
            n,
            capacity.as_ptr(),
            capacity.len(),
            demand.as_ptr(),
            demand.len(),
            withdrawn.as_ptr(),
            withdrawn.len(),
            kept.as_mut_ptr(),
            kept.len(),
        );
    }
}

/// A schedule of L slots that gives each pair exactly its kept slots and holds 255 elsewhere, and
/// its reconfigurations. `kept` is worked in, and at the end as it was.
pub fn place(n: usize, slots: usize, kept: &mut [u32], schedule: &mut [u8]) -> u32 {
    ask_cells(n, kept);
    ask_frame(n, slots, schedule);
    ask_admissible(n, slots, kept);
    unsafe { place_untested(n, slots, kept, schedule) }
}

/// [`place`] alone, of which the stack can be measured.
///
/// # Safety
///
/// All that [`place`] tests must hold: up to 64 nodes and 1,024 slots, tables that are long enough,
/// and no line of `kept` above L.
#[inline]
pub unsafe fn place_untested(n: usize, slots: usize, kept: &mut [u32], schedule: &mut [u8]) -> u32 {
    unsafe {
        raw::lab_place(
            n,
            slots,
            kept.as_mut_ptr(),
            kept.len(),
            schedule.as_mut_ptr(),
            schedule.len(),
        )
    }
}

/// Up to 64 nodes, and a cell for each pair.
#[track_caller]
fn ask_cells(n: usize, table: &[u32]) {
    assert!(n <= 64, "{n} nodes");
    assert!(table.len() >= n * n, "a table lacks cells");
}

#[track_caller]
fn ask_demands(n: usize, table: &[u32]) {
    ask_cells(n, table);
    let most = table[..n * n].iter().max();
    assert!(most <= Some(&65_535), "a demand is above 65,535");
}

#[track_caller]
fn ask_lines<T>(n: usize, table: &[T]) {
    assert!(table.len() >= 2 * n, "a table lacks lines");
}

#[track_caller]
fn ask_capacities(n: usize, capacity: &[u32]) {
    ask_lines(n, capacity);
    let most = capacity[..2 * n].iter().max();
    assert!(most <= Some(&1_024), "a capacity is above 1,024");
}

#[track_caller]
fn ask_frame(n: usize, slots: usize, schedule: &[u8]) {
    assert!(n <= 64, "{n} nodes");
    assert!(slots <= 1_024, "{slots} slots");
    assert!(schedule.len() >= slots * n, "a schedule lacks slots");
}

#[track_caller]
fn ask_admissible(n: usize, slots: usize, kept: &[u32]) {
    let mut columns = [0; 64];
    for i in 0..n {
        let row = &kept[i * n..][..n];
        let sum: u64 = row.iter().map(|&v| u64::from(v)).sum();
        assert!(sum <= slots as u64, "a row is above L");
        for (column, &v) in columns.iter_mut().zip(row) {
            *column += u64::from(v);
        }
    }
    let most = columns.into_iter().max();
    assert!(most <= Some(slots as u64), "a column is above L");
}

#[cfg(test)]
mod tests {
    use std::panic::{AssertUnwindSafe, catch_unwind};

    /// What the layers are called with; the ceilings of `largest` are the capacities.
    struct Tables {
        n: usize,
        slots: usize,
        capacity: Vec<u32>,
        demand: Vec<u32>,
        withdrawn: Vec<u32>,
        marks: Vec<u8>,
        kept: Vec<u32>,
        schedule: Vec<u8>,
    }

    /// Document 01, case e.
    fn tables() -> Tables {
        Tables {
            n: 2,
            slots: 4,
            capacity: vec![4; 4],
            demand: vec![3, 3, 3, 0],
            withdrawn: vec![2, 0, 0, 0],
            marks: vec![0; 4],
            kept: vec![1, 3, 3, 0],
            schedule: vec![0; 8],
        }
    }

    fn fair_cut(t: &mut Tables) {
        super::fair_cut(t.n, &t.capacity, &t.demand, &mut t.kept);
    }

    fn largest(t: &mut Tables) {
        super::largest(
            t.n,
            &t.demand,
            &mut t.capacity,
            &mut t.withdrawn,
            &mut t.marks,
        );
    }

    fn withdraw(t: &mut Tables) {
        super::withdraw(t.n, &t.capacity, &t.demand, &mut t.withdrawn, &mut t.marks);
    }

    fn keep(t: &mut Tables) {
        // Case e has one greatest withdrawn matrix, and no fault below touches it alone.
        unsafe { super::keep(t.n, &t.capacity, &t.demand, &t.withdrawn, &mut t.kept) };
    }

    fn place(t: &mut Tables) {
        super::place(t.n, t.slots, &mut t.kept, &mut t.schedule);
    }

    #[test]
    fn case_e() {
        let mut t = tables();
        t.kept.fill(0);
        withdraw(&mut t);
        assert_eq!(t.withdrawn, [2, 0, 0, 0]);
        keep(&mut t);
        assert_eq!(t.kept, [1, 3, 3, 0]);
        let reconfigurations = super::place(t.n, t.slots, &mut t.kept, &mut t.schedule);
        assert_eq!(t.kept, [1, 3, 3, 0]);
        let mut slots: Vec<&[u8]> = t.schedule.chunks(2).collect();
        slots.sort_unstable();
        assert_eq!(slots, [[0, 255], [1, 0], [1, 0], [1, 0]]);
        assert_eq!(reconfigurations, 1);
        fair_cut(&mut t);
        assert_eq!(t.kept, [2, 2, 2, 0]);
        largest(&mut t);
        assert_eq!(t.withdrawn.iter().sum::<u32>(), 7);
        assert_eq!(t.capacity.iter().sum::<u32>(), 16 - 14);
    }

    #[test]
    fn a_call_without_what_is_asked_panics() {
        type Fault = fn(&mut Tables);
        let calls = [fair_cut, largest, withdraw, keep, place];
        let faults: [(Fault, [u8; 5]); 14] = [
            (|_| (), [0, 0, 0, 0, 0]),
            (|t| t.n = 65, [1, 1, 1, 1, 1]),
            (|t| t.demand.truncate(3), [1, 1, 1, 1, 0]),
            (|t| t.demand[3] = 65_536, [1, 1, 1, 1, 0]),
            (|t| t.capacity.truncate(3), [1, 1, 1, 1, 0]),
            (|t| t.capacity[3] = 1_025, [1, 0, 1, 1, 0]),
            (|t| t.withdrawn.truncate(3), [0, 1, 1, 1, 0]),
            (|t| t.marks.truncate(3), [0, 1, 1, 0, 0]),
            (|t| t.kept.truncate(3), [1, 0, 0, 1, 1]),
            (|t| t.slots = 1_025, [0, 0, 0, 0, 1]),
            (|t| t.schedule.truncate(7), [0, 0, 0, 0, 1]),
            (|t| t.kept = vec![2, 3, 0, 0], [0, 0, 0, 0, 1]),
            (|t| t.kept = vec![2, 0, 3, 0], [0, 0, 0, 0, 1]),
            (|t| t.kept = vec![u32::MAX; 4], [0, 0, 0, 0, 1]),
        ];
        for (fault, panics) in faults {
            let panicked = calls.map(|call| {
                let mut t = tables();
                fault(&mut t);
                u8::from(catch_unwind(AssertUnwindSafe(|| call(&mut t))).is_err())
            });
            assert_eq!(panicked, panics);
        }
    }
}
