//! The plan call by document 01, written for speed: safe Rust, no heap, each flow's blocks linked
//! in a queue, and the waiting list a ring. It makes every test that the planner makes and fills
//! the same tables, so that call stands against call. Of several ways to write it this was the
//! fastest: the links have 32 bits and are made in the pass that tests the blocks, the compiler
//! knows the stage count, and the records are updated at each start.

use std::slice::ChunksExactMut;

use crate::call::{
    Asked, Counts, Record, BLOCK_WORDS, LAST_ARRIVAL, LONGEST_TIME, MOST_BLOCKS, MOST_FLOWS,
    MOST_STAGES, ROW_WORDS,
};

/// For each block the next one of its flow, and behind these for each flow its first one; the
/// block count where there is none.
type Links = [u32; MOST_BLOCKS + MOST_FLOWS];

/// It isn't made a part of its caller, since the planner cannot be either.
#[inline(never)]
pub fn plan(asked: &Asked, records: &mut [Record], rows: &mut [u64], counts: &mut Counts) -> u64 {
    *counts = [0; 6];
    let (stages, flows, blocks) = (asked.stages, asked.flows, asked.blocks);
    if !(1..=MOST_STAGES).contains(&stages) {
        return 3;
    }
    if MOST_FLOWS < flows || MOST_BLOCKS < blocks {
        return 4;
    }
    let row_words = ROW_WORDS * asked.listed();
    let block_words = BLOCK_WORDS * blocks;
    if asked.table.len() < block_words || records.len() < flows || rows.len() < row_words {
        return 7;
    }
    let table = &asked.table[..block_words];
    let mut links = [0; MOST_BLOCKS + MOST_FLOWS];
    let number = test_and_link(stages, flows, table, &mut links);
    if number != 0 {
        return number;
    }
    let records = &mut records[..flows];
    let rows = &mut rows[..row_words];
    records.fill([0; 3]);
    *counts = match stages {
        1 => run::<1>(table, &links, records, rows),
        2 => run::<2>(table, &links, records, rows),
        3 => run::<3>(table, &links, records, rows),
        _ => run::<4>(table, &links, records, rows),
    };
    0
}

/// Tests 8 to 11 block by block, and puts each block at the end of its flow's queue.
fn test_and_link(stages: usize, flows: usize, table: &[u32], links: &mut Links) -> u64 {
    let longest = |stage| if stages < stage { 0 } else { LONGEST_TIME };
    let (longest2, longest3, longest4) = (longest(2), longest(3), longest(4));
    let mut tails = [0; MOST_FLOWS];
    for (flow, tail) in tails.iter_mut().enumerate() {
        *tail = (MOST_BLOCKS + flow) as u32;
    }
    let mut above = 0;
    for (place, block) in table.chunks_exact(BLOCK_WORDS).enumerate() {
        let (flow, arrival) = (block[0] as usize, block[1]);
        let (one, two, three, four) = (block[2], block[3], block[4], block[5]);
        if flows <= flow {
            return 8;
        }
        let late = LAST_ARRIVAL < arrival;
        if late || LONGEST_TIME < one || longest2 < two || longest3 < three || longest4 < four {
            return 9;
        }
        if one | two | three | four == 0 {
            return 10;
        }
        if arrival < above {
            return 11;
        }
        above = arrival;
        let tail = &mut tails[flow % MOST_FLOWS];
        links[*tail as usize] = place as u32;
        *tail = place as u32;
    }
    for tail in tails {
        links[tail as usize] = (table.len() / BLOCK_WORDS) as u32;
    }
    0
}

/// What is remembered of each flow, and the waiting list.
struct Flows {
    /// The oldest block that hasn't started; the block count where there is none.
    oldest: [u32; MOST_FLOWS],
    /// When the first block of the last turn starts at the last stage.
    gate: [u64; MOST_FLOWS],
    excess: [u64; MOST_FLOWS],
    ring: [u8; MOST_FLOWS],
}

impl Flows {
    fn new(links: &Links) -> Flows {
        let mut oldest = [0; MOST_FLOWS];
        oldest.copy_from_slice(&links[MOST_BLOCKS..]);
        Flows {
            oldest,
            gate: [0; MOST_FLOWS],
            excess: [0; MOST_FLOWS],
            ring: [0; MOST_FLOWS],
        }
    }
}

/// Where the plan is. It has no array but one of which every place is known, so the compiler can
/// keep it in registers.
struct Now<'a, const STAGES: usize> {
    table: &'a [u32],
    links: &'a Links,
    rows: ChunksExactMut<'a, u64>,
    /// When each stage finishes the block before.
    free: [u64; STAGES],
    clock: u64,
    /// The blocks above this place in the table have arrived.
    arrived: usize,
    head: usize,
    waiting: usize,
    turns: u64,
    round: u64,
    left: usize,
    credit: u64,
    largest_excess: u64,
    held: u64,
    held_ticks: u64,
}

fn run<const STAGES: usize>(
    table: &[u32],
    links: &Links,
    records: &mut [Record],
    rows: &mut [u64],
) -> Counts {
    let listed = (rows.len() / ROW_WORDS) as u64;
    let mut flows = Flows::new(links);
    let mut now = Now {
        table,
        links,
        rows: rows.chunks_exact_mut(ROW_WORDS),
        free: [0; STAGES],
        clock: 0,
        arrived: 0,
        head: 0,
        waiting: 0,
        turns: 0,
        round: 0,
        left: 0,
        credit: 0,
        largest_excess: 0,
        held: 0,
        held_ticks: 0,
    };
    while now.rows.len() != 0 {
        let (flow, hold) = now.take_head(&mut flows);
        now.take_turn(&mut flows, &mut records[flow], flow, hold);
    }
    let end = now.free[STAGES - 1];
    [listed, now.turns, now.round, now.held, now.held_ticks, end]
}

impl<const STAGES: usize> Now<'_, STAGES> {
    #[inline(always)]
    fn join(&mut self, flows: &mut Flows, flow: usize) {
        flows.ring[(self.head + self.waiting) % MOST_FLOWS] = flow as u8;
        self.waiting += 1;
    }

    /// Takes the arrivals up to the clock. A flow of which an older block waits is listed or held
    /// already, or in its turn.
    #[inline(always)]
    fn arrive(&mut self, flows: &mut Flows, in_turn: usize) {
        let blocks = self.table.len() / BLOCK_WORDS;
        while self.arrived < blocks
            && u64::from(self.table[BLOCK_WORDS * self.arrived + 1]) <= self.clock
        {
            let flow = self.table[BLOCK_WORDS * self.arrived] as usize % MOST_FLOWS;
            if flows.oldest[flow] as usize == self.arrived && flow != in_turn {
                self.join(flows, flow);
            }
            self.arrived += 1;
        }
    }

    /// Opens a round where one is due, takes the head of the list and holds it as long as its last
    /// turn demands. Answers the flow and its hold.
    #[inline(always)]
    fn take_head(&mut self, flows: &mut Flows) -> (usize, u64) {
        if self.waiting == 0 {
            self.clock = u64::from(self.table[BLOCK_WORDS * self.arrived + 1]);
            self.arrive(flows, MOST_FLOWS);
        }
        if self.left == 0 {
            self.round += 1;
            self.left = self.waiting;
            self.credit = self.largest_excess;
            self.largest_excess = 0;
        }
        self.left -= 1;
        let flow = flows.ring[self.head] as usize % MOST_FLOWS;
        self.head = (self.head + 1) % MOST_FLOWS;
        self.waiting -= 1;
        self.turns += 1;
        let ready = self.clock;
        if ready < flows.gate[flow] {
            self.clock = flows.gate[flow];
            self.held += 1;
            self.held_ticks += self.clock - ready;
            self.arrive(flows, MOST_FLOWS);
        }
        (flow, self.clock - ready)
    }

    #[inline(always)]
    fn take_turn(&mut self, flows: &mut Flows, record: &mut Record, flow: usize, hold: u64) {
        record[1] += 1;
        let mut balance = self.credit as i64 - flows.excess[flow] as i64;
        let (mut hold, mut first) = (hold, true);
        while let Some(words) = self.rows.next() {
            let place = flows.oldest[flow] as usize;
            flows.oldest[flow] = self.links[place % MOST_BLOCKS];
            let block = &self.table[BLOCK_WORDS * place..BLOCK_WORDS * (place + 1)];
            let (time, stage) = dominant::<STAGES>(block);
            let mut row = [0; ROW_WORDS];
            row[0] = place as u64;
            row[1] = flow as u64;
            row[2] = self.round;
            row[3] = self.turns;
            row[4] = balance as u64;
            row[5] = hold;
            row[6] = stage;
            let last = pass(block, self.clock, &mut self.free, &mut row);
            words.copy_from_slice(&row);
            if first {
                flows.gate[flow] = last;
                first = false;
            }
            hold = 0;
            record[0] += 1;
            record[2] += time;
            balance -= time as i64;
            self.clock = self.free[0];
            self.arrive(flows, flow);
            if balance < 0 || self.arrived <= flows.oldest[flow] as usize {
                break;
            }
        }
        self.end_turn(flows, flow, balance);
    }

    /// A flow with a block that waits joins the list behind those that arrived at this tick.
    #[inline(always)]
    fn end_turn(&mut self, flows: &mut Flows, flow: usize, balance: i64) {
        if (flows.oldest[flow] as usize) < self.arrived {
            flows.excess[flow] = -balance as u64;
            self.largest_excess = self.largest_excess.max(flows.excess[flow]);
            self.join(flows, flow);
        } else {
            flows.excess[flow] = 0;
        }
    }
}

/// The largest time of a block, and the highest numbered stage that has it (T-01).
#[inline(always)]
fn dominant<const STAGES: usize>(block: &[u32]) -> (u64, u64) {
    let (mut time, mut stage) = (block[2], 1);
    for other in 1..STAGES {
        if time <= block[2 + other] {
            time = block[2 + other];
            stage = other as u64 + 1;
        }
    }
    (u64::from(time), stage)
}

/// A block's way through the stages, into its row. Answers its start at the last stage.
#[inline(always)]
fn pass<const STAGES: usize>(
    block: &[u32],
    clock: u64,
    free: &mut [u64; STAGES],
    row: &mut [u64; ROW_WORDS],
) -> u64 {
    let (mut start, mut finish) = (0, clock);
    for stage in 0..STAGES {
        start = finish.max(free[stage]);
        finish = start + u64::from(block[2 + stage]);
        free[stage] = finish;
        row[7 + 2 * stage] = start;
        row[8 + 2 * stage] = finish;
    }
    start
}
