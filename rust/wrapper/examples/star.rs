//! Three nodes, frames of four slots: one plan, then a run of three posts and three frames. The
//! program `star.c` prints the same.

use gyodaebeun::{Books, Refusal, Report, Run, plan};

const NODES: usize = 3;
const PAIRS: usize = NODES * NODES;
const SLOTS: usize = 4;
const QUEUE_LIMIT: u32 = 6;
const LEAST: u32 = 1;

/// What a plan or a frame writes.
#[derive(Default)]
struct Frame {
    kept: [u32; PAIRS],
    withdrawn: [u32; PAIRS],
    schedule: [u8; SLOTS * NODES],
}

impl Frame {
    /// In how many slots a destination hears a source.
    fn heard(&self, destination: usize) -> usize {
        let slots = self.schedule.chunks(NODES);
        slots.filter(|slot| slot[destination] != 255).count()
    }
}

fn main() -> Result<(), Refusal> {
    plan_once()?;
    run()?;
    let refusal = plan_for_nobody().expect_err("there are no nodes");
    println!("refused {} {}", refusal.number(), refusal.place());
    Ok(())
}

fn plan_once() -> Result<(), Refusal> {
    let demand = [2, 2, 1, 2, 0, 3, 1, 3, 0];
    let mut frame = Frame::default();
    let Frame {
        kept,
        withdrawn,
        schedule,
    } = &mut frame;
    let (nodes, slots) = (NODES as u32, SLOTS as u32);
    let report = plan(nodes, slots, LEAST, &demand, kept, withdrawn, schedule)?;
    print_report("plan", &report, &frame);
    print_rows(&frame.kept);
    Ok(())
}

fn run() -> Result<(), Refusal> {
    let mut books = Books {
        waiting: &mut [0; PAIRS],
        posted: &mut [0; PAIRS],
        sent: &mut [0; PAIRS],
        dropped: &mut [0; PAIRS],
    };
    let posts = [
        [5, 0, 0, 0, 3, 0, 0, 0, 9],
        [0, 1, 0, 0, 0, 1, 1, 0, 0],
        [0, 0, 0, 2, 2, 2, 0, 0, 0],
    ];
    let mut frame = Frame::default();
    let mut run = Run::default();
    run.fresh(NODES as u32, SLOTS as u32, QUEUE_LIMIT, LEAST, &mut books)?;
    for arrivals in &posts {
        run.post(arrivals, &mut books)?;
        let Frame {
            kept,
            withdrawn,
            schedule,
        } = &mut frame;
        let report = run.frame(&mut books, kept, withdrawn, schedule)?;
        print_report("frame", &report, &frame);
        print_rows(books.waiting);
    }
    println!(
        "{} posts and {} frames: posted {} sent {} dropped {} waiting {}",
        run.posts,
        run.frames,
        books.posted.iter().sum::<u64>(),
        books.sent.iter().sum::<u64>(),
        books.dropped.iter().sum::<u64>(),
        books.waiting.iter().sum::<u32>(),
    );
    Ok(())
}

fn plan_for_nobody() -> Result<Report, Refusal> {
    plan(0, 4, LEAST, &[], &mut [], &mut [], &mut [])
}

fn print_report(what: &str, report: &Report, frame: &Frame) {
    let Report { kept, refused, .. } = report;
    let heard = [0, 1, 2].map(|destination| frame.heard(destination));
    println!("{what}: kept {kept} refused {refused}, slots heard {heard:?}");
}

fn print_rows(table: &[u32]) {
    for row in table.chunks(NODES) {
        let row: Vec<String> = row.iter().map(u32::to_string).collect();
        println!("  {}", row.join(" "));
    }
}
