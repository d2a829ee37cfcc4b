use crate::{Refusal, Report, raw};

/// The record of a run. [`Run::fresh`] fills it; [`Run::post`] and [`Run::frame`] check the values
/// they find in it and use them. A caller may store it, with the four tables of [`Books`], and go
/// on later.
///
/// An accepted fresh start stores the whole record, an accepted post only `posts`, an accepted frame
/// only `frames`. A refused call stores nothing in it.
#[repr(C)]
#[derive(Clone, Copy, Debug, Default, PartialEq, Eq)]
pub struct Run {
    /// N, from 1 to 64.
    pub nodes: u32,
    /// L, from 1 to 1,024.
    pub slots: u32,
    /// B: how many slots of one pair may wait, from 1 to 65,535.
    pub limit: u32,
    /// 0 fair, 1 least.
    pub rule: u32,
    /// How many posts were accepted.
    pub posts: u32,
    /// How many frames were accepted.
    pub frames: u32,
}

/// The four tables of a run, each of N×N cells or more; a cell counts slots of its pair.
///
/// The books of a pair agree when `waiting` is at most B, `posted` equals `waiting` plus `sent` plus
/// `dropped`, and `posted` is at most 65,535 times the posts accepted. [`Run::fresh`] makes them
/// agree, and accepted calls keep them so.
#[derive(Debug, PartialEq, Eq)]
pub struct Books<'a> {
    /// What has been posted and neither sent nor dropped: the queues.
    pub waiting: &'a mut [u32],
    /// What was asked for by all posts.
    pub posted: &'a mut [u64],
    /// What all frames carried.
    pub sent: &'a mut [u64],
    /// What found its queue full.
    pub dropped: &'a mut [u64],
}

impl Run {
    /// Starts a run: N, L, B and the rule go into the record, both counts become 0, and so do the
    /// first N×N cells of the four tables. What the record and the tables held before does not
    /// matter.
    ///
    /// Refused by [`Refusal::Nodes`], [`Refusal::Slots`], [`Refusal::Rule`],
    /// [`Refusal::TableShort`] and [`Refusal::QueueLimit`]; then neither the record nor a table is
    /// changed.
    pub fn fresh(
        &mut self,
        nodes: u32,
        slots: u32,
        limit: u32,
        rule: u32,
        books: &mut Books<'_>,
    ) -> Result<(), Refusal> {
        let mut place = 0;
        let number = raw::fresh(
            self,
            nodes,
            slots,
            limit,
            rule,
            books.waiting,
            books.posted,
            books.sent,
            books.dropped,
            &mut place,
        );
        Refusal::given(number, place)
    }

    /// Posts arrivals, N×N cells: each is added to `posted`, what would lift `waiting` above B to
    /// `dropped`, the rest to `waiting`; `posts` rises by 1, and nothing else in the record
    /// changes. `sent` is only read.
    ///
    /// Refused by [`Refusal::Nodes`], [`Refusal::Slots`], [`Refusal::Rule`] and
    /// [`Refusal::QueueLimit`] for what the record holds, [`Refusal::DemandShort`],
    /// [`Refusal::TableShort`], [`Refusal::DemandAbove`], [`Refusal::BooksDisagree`], and
    /// [`Refusal::CallsSpent`] after 1,000,000 posts; then neither the record nor a table is changed.
    pub fn post(&mut self, arrivals: &[u32], books: &mut Books<'_>) -> Result<(), Refusal> {
        let mut place = 0;
        let number = raw::post(
            self,
            arrivals,
            books.waiting,
            books.posted,
            books.sent,
            books.dropped,
            &mut place,
        );
        Refusal::given(number, place)
    }

    /// Plans a frame with what is waiting as the demand and sends it: writes `kept`, `withdrawn` and
    /// `schedule` as [`plan`](crate::plan) does, takes what is kept from `waiting` and adds it to
    /// `sent`; `frames` rises by 1, and nothing else in the record changes. `posted` and `dropped`
    /// are only read. A frame over empty queues is accepted.
    ///
    /// Refused by [`Refusal::Nodes`], [`Refusal::Slots`], [`Refusal::Rule`] and
    /// [`Refusal::QueueLimit`] for what the record holds, [`Refusal::TableShort`] for any of the
    /// seven tables, [`Refusal::BooksDisagree`], and [`Refusal::CallsSpent`] after 1,000,000 frames;
    /// then neither the record nor a table is changed.
    pub fn frame(
        &mut self,
        books: &mut Books<'_>,
        kept: &mut [u32],
        withdrawn: &mut [u32],
        schedule: &mut [u8],
    ) -> Result<Report, Refusal> {
        let mut report = [0; 4];
        let number = raw::frame(
            self,
            books.waiting,
            books.posted,
            books.sent,
            books.dropped,
            kept,
            withdrawn,
            schedule,
            &mut report,
        );
        Report::given(number, report)
    }
}

#[cfg(test)]
mod tests {
    use super::Run;

    /// The library takes the record as six 32-bit numbers in this order.
    #[test]
    fn a_record_is_six_numbers_in_a_row() {
        let run = Run {
            nodes: 1,
            slots: 2,
            limit: 3,
            rule: 4,
            posts: 5,
            frames: 6,
        };
        assert_eq!(align_of::<Run>(), align_of::<[u32; 6]>());
        let numbers: [u32; 6] = unsafe { std::mem::transmute(run) };
        assert_eq!(numbers, [1, 2, 3, 4, 5, 6]);
    }
}
