//! The library's calls at N 64 and L 1,024, and how much stack each takes: all entries, and placing
//! by itself. They are made in C, so that nothing of a wrapper is measured.

use gyodaebeun::{FRAME, POST, Run, TEXT_BYTES, raw};
use second::inputs::{FAMILIES, Random};
use second::limits::{FAIR, LEAST};

pub const NODES: u32 = 64;
pub const SLOTS: u32 = 1_024;

const QUEUE_LIMIT: u32 = 65_535;
const PAIRS: usize = (NODES * NODES) as usize;

/// A call whose stack is measured, and the rule under which it is made.
#[derive(Clone, Copy)]
pub struct Measured {
    pub name: &'static str,
    rule: u32,
    /// Gives a refusal's number, 0 for an accepted call.
    call: fn(&mut Tables) -> u32,
}

pub const MEASURED: [Measured; 12] = [
    Measured::new("slacks", FAIR, slacks),
    Measured::new("plan, fair", FAIR, plan),
    Measured::new("plan, least", LEAST, plan),
    Measured::new("fresh", FAIR, fresh),
    Measured::new("post", FAIR, post),
    Measured::new("frame, fair", FAIR, frame),
    Measured::new("frame, least", LEAST, frame),
    Measured::new("write_scenario", FAIR, write_scenario),
    Measured::new("play_scenario, fair", FAIR, play_scenario),
    Measured::new("play_scenario, least", LEAST, play_scenario),
    Measured::new("placement, fair", FAIR, place),
    Measured::new("placement, least", LEAST, place),
];

/// What measuring itself adds to each of them.
pub const NO_CALL: Measured = Measured::new("no call", FAIR, |_| 0);

/// The call of this name.
pub fn measured(name: &str) -> Measured {
    let named = MEASURED.into_iter().find(|call| call.name == name);
    named.expect("there is such a call")
}

/// Bytes of stack, over several demands.
pub struct Taken {
    pub least: usize,
    pub most: usize,
    /// Whose demand took the most.
    pub family: &'static str,
}

impl Measured {
    const fn new(name: &'static str, rule: u32, call: fn(&mut Tables) -> u32) -> Measured {
        Measured { name, rule, call }
    }

    /// The stack that it takes on so many demands of each family.
    pub fn stack_taken(self, random: &mut Random, demands: usize) -> Taken {
        let mut taken = Vec::new();
        for (name, family) in FAMILIES {
            for _ in 0..demands {
                let demand = family(random, NODES as usize, SLOTS);
                taken.push((self.stack_taken_on(demand), name));
            }
        }
        let (least, _) = *taken.iter().min().expect("there are demands");
        let (most, family) = *taken.iter().max().expect("there are demands");
        Taken {
            least,
            most,
            family,
        }
    }

    fn stack_taken_on(self, demand: Vec<u32>) -> usize {
        let mut tables = Tables::asking(demand, self.rule);
        let mut number = 0;
        let taken = stack::taken(|| number = (self.call)(&mut tables));
        assert_eq!(number, 0, "{} was refused", self.name);
        taken
    }
}

/// All that any call is lent, of just the length needed.
struct Tables {
    rule: u32,
    demand: Vec<u32>,
    slacks: Vec<i32>,
    run: Run,
    waiting: Vec<u32>,
    posted: Vec<u64>,
    sent: Vec<u64>,
    dropped: Vec<u64>,
    kept: Vec<u32>,
    withdrawn: Vec<u32>,
    schedule: Vec<u8>,
    file: Vec<u8>,
    text: Vec<u8>,
}

/// The scenario's entries: the demand is posted, and a frame sent.
const KINDS: [u32; 2] = [POST, FRAME];

impl Tables {
    /// The demand stands in the queues too, after one post, and the rule's plan has been made: the
    /// kept matrix is there to be placed. The scenario is there to be played.
    fn asking(demand: Vec<u32>, rule: u32) -> Tables {
        let mut tables = Tables {
            rule,
            slacks: vec![0; 2 * NODES as usize],
            run: Run {
                nodes: NODES,
                slots: SLOTS,
                limit: QUEUE_LIMIT,
                rule,
                posts: 1,
                frames: 0,
            },
            waiting: demand.clone(),
            posted: demand.iter().map(|&v| u64::from(v)).collect(),
            sent: vec![0; PAIRS],
            dropped: vec![0; PAIRS],
            kept: vec![0; PAIRS],
            withdrawn: vec![0; PAIRS],
            schedule: vec![0; (SLOTS * NODES) as usize],
            file: vec![0; 20 + 8 * KINDS.len() + 2 * PAIRS],
            text: vec![0; TEXT_BYTES],
            demand,
        };
        assert_eq!(plan(&mut tables), 0, "the plan was refused");
        assert_eq!(write_scenario(&mut tables), 0, "the scenario was refused");
        tables
    }
}

fn slacks(tables: &mut Tables) -> u32 {
    let mut place = 0;
    raw::slacks(NODES, SLOTS, &tables.demand, &mut tables.slacks, &mut place)
}

fn plan(tables: &mut Tables) -> u32 {
    let mut report = [0; 4];
    raw::plan(
        NODES,
        SLOTS,
        tables.rule,
        &tables.demand,
        &mut tables.kept,
        &mut tables.withdrawn,
        &mut tables.schedule,
        &mut report,
    )
}

fn fresh(tables: &mut Tables) -> u32 {
    let mut place = 0;
    raw::fresh(
        &mut tables.run,
        NODES,
        SLOTS,
        QUEUE_LIMIT,
        tables.rule,
        &mut tables.waiting,
        &mut tables.posted,
        &mut tables.sent,
        &mut tables.dropped,
        &mut place,
    )
}

fn post(tables: &mut Tables) -> u32 {
    let mut place = 0;
    raw::post(
        &mut tables.run,
        &tables.demand,
        &mut tables.waiting,
        &mut tables.posted,
        &tables.sent,
        &mut tables.dropped,
        &mut place,
    )
}

fn frame(tables: &mut Tables) -> u32 {
    let mut report = [0; 4];
    raw::frame(
        &mut tables.run,
        &mut tables.waiting,
        &tables.posted,
        &mut tables.sent,
        &tables.dropped,
        &mut tables.kept,
        &mut tables.withdrawn,
        &mut tables.schedule,
        &mut report,
    )
}

fn write_scenario(tables: &mut Tables) -> u32 {
    let mut report = [0; 2];
    raw::write_scenario(
        NODES,
        SLOTS,
        QUEUE_LIMIT,
        tables.rule,
        &KINDS,
        &tables.demand,
        &mut tables.file,
        &mut report,
    )
}

fn play_scenario(tables: &mut Tables) -> u32 {
    let mut report = [0; 2];
    raw::play_scenario(&tables.file, &mut tables.text, &mut report)
}

/// Of what the plan keeps; this call cannot be refused.
fn place(tables: &mut Tables) -> u32 {
    let (n, slots) = (NODES as usize, SLOTS as usize);
    unsafe { lab::place_untested(n, slots, &mut tables.kept, &mut tables.schedule) };
    0
}
