//! The entries `fresh`, `post` and `frame`: the proved library and the second program, call by call
//! over whole runs. Of an accepted frame many are right, so it is judged by document 01, and the
//! second program's books go on with what the library's schedule carries.

use compare::Answer;
use compare::run::{Call, Parties, State};
use second::inputs::{FAMILIES, Random, choices};
use second::limits::{CALLS, DEMAND, FAIR, LEAST};
use second::plan::Written;
use second::refusal;
use second::run::{Books, Record};

/// How often each number was answered, by the kind of call.
#[derive(Debug, Default)]
struct Given {
    fresh: [usize; 10],
    post: [usize; 10],
    frame: [usize; 10],
}

impl Given {
    fn count(&mut self, call: &Call, answer: Answer) {
        let counts = match call {
            Call::Fresh { .. } => &mut self.fresh,
            Call::Post(_) => &mut self.post,
            Call::Frame => &mut self.frame,
        };
        counts[answer.0 as usize] += 1;
    }
}

#[test]
fn random_runs() {
    let mut random = Random::announced();
    let mut given = Given::default();
    for _ in 0..8_000 {
        play(&mut random, &mut given);
    }
    println!("answers by number: {given:?}");
    for (counts, apply) in [
        (given.fresh, refusal::FRESH),
        (given.post, refusal::POST),
        (given.frame, refusal::FRAME),
    ] {
        assert!(counts[0] > 1_000, "too few are accepted");
        assert!(apply.iter().all(|&number| counts[number as usize] > 50));
    }
}

/// A run of up to 200 calls. Calls with a damaged record or damaged tables are made aside, on a copy
/// of what the run holds, and all others in the run itself.
fn play(random: &mut Random, given: &mut Given) {
    let (n, slots, calls) = size(random);
    let mut run = begun(random, n, slots, given);
    for _ in 0..calls {
        let call = random_call(random, n, slots);
        if random.one_in(6) {
            let mut aside = Parties::holding(damaged(random, run.state()));
            given.count(&call, aside.call(&call));
        } else {
            given.count(&call, run.call(&call));
        }
    }
}

/// N, L and the number of calls: mostly long runs of small stars.
fn size(random: &mut Random) -> (usize, u32, usize) {
    if random.one_in(40) {
        (random.nodes(), random.slots(), random.below(12))
    } else {
        let longest = random.pick(&[10, 30, 60, 201]);
        let slots = 1 + random.up_to(11);
        (1 + random.below(5), slots, random.below(longest))
    }
}

/// A run just started on used tables, or one that goes on near the end of its posts or frames.
fn begun(random: &mut Random, n: usize, slots: u32, given: &mut Given) -> Parties {
    let values = random_values(random, n, slots);
    let mut run = Parties::holding(random_state(random, n, slots));
    let fresh = Call::fresh(&values);
    let answer = run.call(&fresh);
    assert_eq!(answer, (0, 0));
    given.count(&fresh, answer);
    if random.one_in(4) {
        let mut state = run.state().clone();
        let near_the_end = [0, CALLS - 20, CALLS - 3, CALLS - 1, CALLS, u32::MAX];
        state.record.posts = random.pick(&near_the_end);
        state.record.frames = random.pick(&near_the_end);
        run = Parties::holding(state);
    }
    run
}

fn random_values(random: &mut Random, n: usize, slots: u32) -> Record {
    let any = 1 + random.up_to(65_534);
    let limit = random.pick(&[1, slots, 1 + 2 * slots, 5 * slots, any, 65_535]);
    let rule = random.pick(&[FAIR, LEAST]);
    Record::fresh(n as u32, slots, limit, rule)
}

/// Anything at all in the record and the tables, which are often longer than needed.
fn random_state(random: &mut Random, n: usize, slots: u32) -> State {
    let mut words = |cells| {
        let longer = random.pick(&[0, 1, 9]);
        random.words(cells + longer)
    };
    let wide = |words: Vec<u32>| words.iter().map(|&v| u64::from(v) << 32 | 7).collect();
    let record = words(6);
    State {
        record: Record {
            nodes: record[0],
            slots: record[1],
            limit: record[2],
            rule: record[3],
            posts: record[4],
            frames: record[5],
        },
        books: Books {
            waiting: words(n * n),
            posted: wide(words(n * n)),
            sent: wide(words(n * n)),
            dropped: wide(words(n * n)),
        },
        written: Written {
            kept: words(n * n),
            withdrawn: words(n * n),
            schedule: words(n * slots as usize).iter().map(|&v| v as u8).collect(),
        },
    }
}

/// A post or a frame, seldom a new start. Some posts have bad arrivals, many starts bad values.
fn random_call(random: &mut Random, n: usize, slots: u32) -> Call {
    match random.below(40) {
        0 | 1 => {
            let mut values = random_values(random, n, slots);
            if !random.one_in(4) {
                damage_record(random, &mut values);
            }
            Call::fresh(&values)
        }
        2..20 => Call::Post(random_arrivals(random, n, slots)),
        _ => Call::Frame,
    }
}

fn random_arrivals(random: &mut Random, n: usize, slots: u32) -> Vec<u32> {
    let mut arrivals = random.demand(n, slots);
    match random.below(24) {
        0 => arrivals.truncate(random.below(n * n)),
        1 => {
            let any = random.word() as u32 | (DEMAND + 1);
            arrivals[random.below(n * n)] = random.pick(&[DEMAND + 1, 131_071, u32::MAX, any]);
        }
        2..8 => arrivals.extend([DEMAND + 1, u32::MAX]),
        _ => {}
    }
    arrivals
}

/// The state with one or more faults, of which some have no effect.
fn damaged(random: &mut Random, state: &State) -> State {
    let mut state = state.clone();
    for _ in 0..random.pick(&[1, 1, 1, 2, 3]) {
        match random.below(4) {
            0 => damage_record(random, &mut state.record),
            1 => shorten(random, &mut state),
            _ => damage_books(random, &mut state),
        }
    }
    state
}

fn damage_record(random: &mut Random, record: &mut Record) {
    let any = random.word() as u32;
    match random.below(6) {
        0 => {
            let near = [record.nodes.wrapping_sub(1), record.nodes.wrapping_add(1)];
            record.nodes = random.pick(&[0, near[0], near[1], 65, 257, u32::MAX, any]);
        }
        1 => record.slots = random.pick(&[0, 1, 1_025, 65_537, u32::MAX, any]),
        2 => record.limit = random.pick(&[0, 1, 2, 65_535, 65_536, u32::MAX, any]),
        3 => record.rule = random.pick(&[0, 1, 2, 256, 1 << 31, u32::MAX]),
        4 => record.posts = random.pick(&COUNTS),
        _ => record.frames = random.pick(&COUNTS),
    }
}

/// Counts of calls around the ends of their range and beyond.
const COUNTS: [u32; 7] = [0, 1, CALLS - 1, CALLS, CALLS + 1, 1 << 31, u32::MAX];

fn shorten(random: &mut Random, state: &mut State) {
    let State { books, written, .. } = state;
    match random.below(7) {
        0 => cut(random, &mut books.waiting),
        1 => cut(random, &mut books.posted),
        2 => cut(random, &mut books.sent),
        3 => cut(random, &mut books.dropped),
        4 => cut(random, &mut written.kept),
        5 => cut(random, &mut written.withdrawn),
        _ => cut(random, &mut written.schedule),
    }
}

fn cut<T>(random: &mut Random, table: &mut Vec<T>) {
    let fewer = random.pick(&[1, 1, 2, 10, table.len()]);
    table.truncate(table.len().saturating_sub(fewer));
}

/// Adds to numbers of one pair, around 2^32 and around 2^64 as well. Some faults add to two numbers,
/// so that fewer of the three conditions fail, or none.
fn damage_books(random: &mut Random, state: &mut State) {
    let Some(cell) = any_pair(random, &state.books) else {
        return;
    };
    let State { record, books, .. } = state;
    let bits = random.below(64);
    let amount = random.pick(&[1, 1, 1 << bits, u64::MAX]);
    match random.below(8) {
        4 => {
            add(&mut books.sent[cell], amount);
            add(&mut books.dropped[cell], amount.wrapping_neg());
        }
        5 => {
            put_off(books, 0, cell, amount);
            add(&mut books.posted[cell], u64::from(amount as u32));
        }
        6 => {
            add(&mut books.sent[cell], 1 << 63);
            add(&mut books.dropped[cell], 1 << 63);
        }
        7 => {
            let most = u64::from(DEMAND) * u64::from(record.posts);
            let above = most + random.pick(&[0, 1]) - books.posted[cell].min(most);
            add(&mut books.posted[cell], above);
            add(&mut books.sent[cell], above);
        }
        table => put_off(books, table, cell, amount),
    }
}

fn any_pair(random: &mut Random, books: &Books) -> Option<usize> {
    let sums = [&books.posted, &books.sent, &books.dropped];
    let shortest = sums.iter().map(|table| table.len()).min();
    let pairs = shortest.map_or(0, |cells| cells.min(books.waiting.len()));
    (pairs > 0).then(|| random.below(pairs))
}

/// Adds to one number of a pair: waiting, posted, sent or dropped.
fn put_off(books: &mut Books, table: usize, cell: usize, amount: u64) {
    match table {
        0 => books.waiting[cell] = books.waiting[cell].wrapping_add(amount as u32),
        1 => add(&mut books.posted[cell], amount),
        2 => add(&mut books.sent[cell], amount),
        _ => add(&mut books.dropped[cell], amount),
    }
}

/// Adds, and wraps where the sum is too large.
fn add(number: &mut u64, amount: u64) {
    *number = number.wrapping_add(amount);
}

/// The largest star, its arrivals of every family in turn.
#[test]
fn the_largest_star() {
    let mut random = Random::announced();
    for rule in [FAIR, LEAST] {
        for limit in [1_024, 65_535] {
            let mut run = Parties::holding(State::fresh(64, 1_024, limit, rule));
            for (_, family) in FAMILIES {
                accepted(&mut run, &Call::Post(family(&mut random, 64, 1_024)));
                accepted(&mut run, &Call::Frame);
            }
        }
    }
}

#[track_caller]
fn accepted(run: &mut Parties, call: &Call) {
    assert_eq!(run.call(call), (0, 0), "{call:?}");
}

/// The answer to one call, made to parties that hold this.
#[track_caller]
fn answer(state: &State, call: &Call) -> Answer {
    Parties::holding(state.clone()).call(call)
}

/// A run after some calls, without a fault.
fn good() -> State {
    State {
        record: Record {
            posts: 3,
            frames: 2,
            ..Record::fresh(2, 4, 6, LEAST)
        },
        books: Books {
            waiting: vec![0, 1, 2, 3],
            posted: vec![5, 6, 7, 8],
            sent: vec![4, 3, 2, 1],
            dropped: vec![1, 2, 3, 4],
        },
        ..State::fresh(2, 4, 6, LEAST)
    }
}

/// Every single refusal, every pair of them and every larger choice: the first in the order.
#[test]
fn faults_together() {
    for short in 0..7 {
        for faults in choices(refusal::POST) {
            let (state, arrivals) = with_faults(&faults, short);
            let calls = [
                (Call::fresh(&state.record), refusal::FRESH, 4),
                (Call::Post(arrivals), refusal::POST, 4),
                (Call::Frame, refusal::FRAME, 7),
            ];
            for (call, apply, tables) in calls {
                let applies =
                    |fault: &&u32| apply.contains(fault) && (**fault != 5 || short < tables);
                let expected = match faults.iter().find(applies) {
                    None => (0, 0),
                    Some(6) => (6, 2),
                    Some(8) => (8, 1),
                    Some(&number) => (number, 0),
                };
                assert_eq!(answer(&state, &call), expected, "{faults:?}, {call:?}");
            }
        }
    }
}

/// A run and arrivals with just these faults; `short` says which table 5 is about.
fn with_faults(faults: &[u32], short: usize) -> (State, Vec<u32>) {
    let (mut state, mut arrivals) = (good(), vec![1, 2, 3, 4]);
    for fault in faults {
        match fault {
            1 => state.record.nodes = 65,
            2 => state.record.slots = 1_025,
            3 => state.record.rule = 2,
            4 => arrivals.truncate(3),
            5 => resize(&mut state, short, |length| length - 1),
            6 => arrivals[2..].fill(65_536),
            7 => state.record.limit = 65_536,
            8 => state.books.sent[1..].fill(u64::MAX),
            _ => (state.record.posts, state.record.frames) = (CALLS, CALLS),
        }
    }
    (state, arrivals)
}

/// Gives one of the seven tables another length; a run's own four come first.
fn resize(state: &mut State, table: usize, length: impl Fn(usize) -> usize) {
    let State { books, written, .. } = state;
    match table {
        0 => books.waiting.resize(length(books.waiting.len()), 9),
        1 => books.posted.resize(length(books.posted.len()), 9),
        2 => books.sent.resize(length(books.sent.len()), 9),
        3 => books.dropped.resize(length(books.dropped.len()), 9),
        4 => written.kept.resize(length(written.kept.len()), 9),
        5 => written.withdrawn.resize(length(written.withdrawn.len()), 9),
        _ => written.schedule.resize(length(written.schedule.len()), 9),
    }
}

#[test]
fn every_length_of_table() {
    for n in 1..=3 {
        for slots in 1..=3 {
            let good = State::fresh(n, slots, 6, LEAST);
            let cells = (n * n) as usize;
            for table in 0..7 {
                let needed = if table == 6 {
                    (slots * n) as usize
                } else {
                    cells
                };
                for length in 0..needed + 3 {
                    let mut state = good.clone();
                    resize(&mut state, table, |_| length);
                    let short = if length < needed { (5, 0) } else { (0, 0) };
                    let of_a_run = if table < 4 { short } else { (0, 0) };
                    assert_eq!(answer(&state, &Call::fresh(&good.record)), of_a_run);
                    assert_eq!(answer(&state, &Call::Post(vec![2; cells])), of_a_run);
                    assert_eq!(answer(&state, &Call::Frame), short);
                }
            }
            for length in 0..cells + 3 {
                let short = if length < cells { (4, 0) } else { (0, 0) };
                assert_eq!(answer(&good, &Call::Post(vec![2; length])), short);
            }
        }
    }
}

#[test]
fn boundary_values() {
    for nodes in [0, 1, 2, 64, 65, 257, u32::MAX] {
        for slots in [0, 1, 1_024, 1_025, 65_537, u32::MAX] {
            let size = nodes.clamp(1, 65);
            let state = State::fresh(size, slots.clamp(1, 1_025), 1, FAIR);
            for limit in [0, 1, 65_535, 65_536, u32::MAX] {
                for rule in [0, 1, 2, 256, u32::MAX] {
                    let mut state = state.clone();
                    state.record = Record::fresh(nodes, slots, limit, rule);
                    answer(&state, &Call::fresh(&state.record));
                    answer(&state, &Call::Post(vec![1; (size * size) as usize]));
                    answer(&state, &Call::Frame);
                }
            }
        }
    }
}

/// Each of a pair's four numbers, at every pair, off by a little and by a lot.
#[test]
fn every_damaged_pair_is_the_place() {
    for n in [1, 2, 5] {
        let cells = (n * n) as usize;
        let mut run = Parties::holding(State::fresh(n, 4, 6, LEAST));
        accepted(&mut run, &Call::Post(vec![3; cells]));
        accepted(&mut run, &Call::Frame);
        accepted(&mut run, &Call::Post(vec![9; cells]));
        for cell in 0..cells {
            for (table, amount) in OFF {
                let mut state = run.state().clone();
                put_off(&mut state.books, table, cell, amount);
                let place = (8, cell as u32);
                assert_eq!(answer(&state, &Call::Post(vec![0; cells])), place);
                assert_eq!(answer(&state, &Call::Frame), place);
                assert_eq!(answer(&state, &Call::fresh(&state.record)), (0, 0));
            }
        }
    }
}

/// A table of the books, and what is added to a number of it.
const OFF: [(usize, u64); 14] = [
    (0, 1),
    (0, 1 << 31),
    (0, u64::MAX),
    (1, 1),
    (1, 1 << 32),
    (1, 1 << 63),
    (1, u64::MAX),
    (2, 1),
    (2, 1 << 32),
    (2, u64::MAX),
    (3, 1),
    (3, 1 << 32),
    (3, 1 << 63),
    (3, u64::MAX),
];

/// One pair's books: the posts accepted, then waiting, posted, sent and dropped.
type Pair = (u32, u32, u64, u64, u64);

fn one_pair((posts, waiting, posted, sent, dropped): Pair) -> State {
    let mut state = State::fresh(1, 4, 6, LEAST);
    state.record.posts = posts;
    state.books = Books {
        waiting: vec![waiting],
        posted: vec![posted],
        sent: vec![sent],
        dropped: vec![dropped],
    };
    state
}

/// Books that disagree in exact arithmetic and would agree in 64 or in 32 bits.
#[test]
fn sums_that_wrap() {
    let half = 1 << 63;
    let wrapping: [Pair; 7] = [
        (1, 0, 0, half, half),
        (1, 0, 0, u64::MAX, 1),
        (1, 0, 0, 1, u64::MAX),
        (1, 1, 0, u64::MAX, 0),
        (1, 1, 0, 0, u64::MAX),
        (1, 6, 5, half - 1, half),
        (1, 3, 3, 1 << 32, 0),
    ];
    for pair in wrapping {
        let state = one_pair(pair);
        assert_eq!(answer(&state, &Call::Post(vec![1])), (8, 0), "{pair:?}");
        assert_eq!(answer(&state, &Call::Frame), (8, 0), "{pair:?}");
    }
}

/// Posted is at most 65,535 × posts, for a frame too, and also where that is far above 2^32.
#[test]
fn posted_up_to_its_bound() {
    for posts in [0, 1, 2, 65_537, CALLS - 1, CALLS, CALLS + 1, u32::MAX] {
        let most = u64::from(DEMAND) * u64::from(posts);
        let spent = if posts < CALLS { (0, 0) } else { (9, 0) };
        let full = one_pair((posts, 0, most, most / 2, most - most / 2));
        assert_eq!(answer(&full, &Call::Post(vec![65_535])), spent);
        assert_eq!(answer(&full, &Call::Frame), (0, 0));
        for posted in [most + 1, most + 65_535, u64::MAX] {
            let above = one_pair((posts, 0, posted, posted - 1, 1));
            assert_eq!(answer(&above, &Call::Post(vec![0])), (8, 0));
            assert_eq!(answer(&above, &Call::Frame), (8, 0));
        }
    }
}

/// Waiting is at most B.
#[test]
fn waiting_up_to_its_bound() {
    let full = one_pair((1, 6, 6, 0, 0));
    assert_eq!(answer(&full, &Call::Post(vec![1])), (0, 0));
    assert_eq!(answer(&full, &Call::Frame), (0, 0));
    let above = one_pair((1, 7, 7, 0, 0));
    assert_eq!(answer(&above, &Call::Post(vec![1])), (8, 0));
    assert_eq!(answer(&above, &Call::Frame), (8, 0));
}

/// A run that accepts its last posts and frames; the two kinds are counted apart.
#[test]
fn the_last_calls() {
    let mut state = State::fresh(2, 4, 6, LEAST);
    (state.record.posts, state.record.frames) = (CALLS - 3, CALLS - 2);
    let mut run = Parties::holding(state);
    let post = Call::Post(vec![5, 0, 7, 1]);
    for accepted in 0..5 {
        let spent = |last| if accepted < last { (0, 0) } else { (9, 0) };
        assert_eq!(run.call(&post), spent(3));
        assert_eq!(run.call(&Call::Frame), spent(2));
    }
    let Record { posts, frames, .. } = run.state().record;
    assert_eq!((posts, frames), (CALLS, CALLS));
    accepted(&mut run, &Call::fresh(&Record::fresh(2, 4, 6, FAIR)));
    accepted(&mut run, &post);
    accepted(&mut run, &Call::Frame);
}

/// Document 01, case n.
#[test]
fn case_n() {
    let mut run = Parties::holding(State::fresh(1, 4, 1, FAIR));
    accepted(&mut run, &Call::fresh(&Record::fresh(1, 4, 6, LEAST)));
    let books = |run: &Parties| {
        let books = &run.state().books;
        let sums = (books.posted[0], books.sent[0], books.dropped[0]);
        (sums, books.waiting[0])
    };
    accepted(&mut run, &Call::Post(vec![10]));
    assert_eq!(books(&run), ((10, 0, 4), 6));
    accepted(&mut run, &Call::Frame);
    assert_eq!(books(&run), ((10, 4, 4), 2));
    accepted(&mut run, &Call::Post(vec![3]));
    assert_eq!(books(&run), ((13, 4, 4), 5));
    accepted(&mut run, &Call::Frame);
    assert_eq!(books(&run), ((13, 8, 4), 1));
}

/// Document 01, case p.
#[test]
fn case_p() {
    let mut state = State::fresh(1, 4, 6, LEAST);
    state.record.posts = 1_000_000;
    let mut run = Parties::holding(state);
    assert_eq!(run.call(&Call::Post(vec![1])), (9, 0));
    assert_eq!(run.call(&Call::Frame), (0, 0));
    assert_eq!(run.state().record.frames, 1);
}

/// A frame is planned from the queues, and one over empty queues is accepted and idle.
#[test]
fn queues_run_empty() {
    for rule in [FAIR, LEAST] {
        let mut run = Parties::holding(State::fresh(2, 4, 65_535, rule));
        accepted(&mut run, &Call::Post(vec![10, 0, 0, 3]));
        for waiting in [[6, 0, 0, 0], [2, 0, 0, 0], [0; 4], [0; 4]] {
            accepted(&mut run, &Call::Frame);
            assert_eq!(run.state().books.waiting, waiting);
        }
        assert_eq!(run.state().written.schedule, [255; 8]);
        assert_eq!(run.state().books.sent, [10, 0, 0, 3]);
    }
}

/// The safe entries with tables that have no cell.
#[test]
fn tables_without_a_cell() {
    let empty = State::default();
    assert_eq!(answer(&empty, &Call::Frame), (1, 0));
    assert_eq!(answer(&empty, &Call::Post(vec![])), (1, 0));
    let fresh = Call::fresh(&Record::fresh(1, 1, 1, FAIR));
    assert_eq!(answer(&empty, &fresh), (5, 0));
}
