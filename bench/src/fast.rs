//! Document 01, and items 1 to 7 of document 02, in plain Rust, written for speed: the algorithms, tests and order of refusals of the
//! proved crates. Every call answers 0, or the number of its refusal, and then changes nothing; finish the user set
//! aside, 0 for none, or that number as its error.
#![allow(dead_code)] // each program uses its part

use std::{array, mem};

pub const Q: u32 = 65521;
pub const MOST_PLACES: usize = 96;
const MOST_USERS: usize = 8;
const MOST_BLOCKS: usize = 16;

/// The inverses of 1 to 15 modulo Q.
const INVERSES: [u16; 16] =
    [1, 1, 32761, 43681, 49141, 52417, 54601, 56161, 57331, 58241, 58969, 11913, 60061, 60481, 60841, 61153];

/// The inverses of -7 to 8 modulo Q, and 1 for 0.
const GAPS: [u16; 16] =
    [9360, 10920, 13104, 16380, 21840, 32760, 65520, 1, 1, 32761, 43681, 49141, 52417, 54601, 56161, 57331];

/// How far from zero figures may lie, by use and K.
const BOUNDS: [[u16; 16]; 2] = [
    [0, 0, 0, 21840, 16380, 13104, 10920, 9360, 8190, 0, 0, 0, 0, 0, 0, 0],
    [0, 0, 0, 10920, 8190, 6552, 5460, 4680, 4095, 0, 0, 0, 0, 0, 0, 0],
];

/// How many sets of K users have at least U members, and how many of these hold a given user: by K and U.
const USABLE: [[u16; 8]; 16] = counts(0);
const HOLDING: [[u16; 8]; 16] = counts(1);

/// Of all sets (`low` 0), or of those that hold user 1 (`low` 1).
const fn counts(low: u32) -> [[u16; 8]; 16] {
    let mut out = [[0; 8]; 16];
    let mut users = 0;
    while users <= MOST_USERS {
        let mut set: u32 = 0;
        while set < 1 << users {
            let mut threshold = 0;
            while threshold < 8 {
                if threshold <= set.count_ones() && low <= set & 1 {
                    out[users][threshold as usize] += 1;
                }
                threshold += 1;
            }
            set += 1;
        }
        users += 1;
    }
    out
}

fn reduced(n: u64) -> u16 {
    (n % Q as u64) as u16
}

/// The sum of two elements, in 16 bits: 65536 is 15 more than Q.
fn add(a: u16, b: u16) -> u16 {
    a.wrapping_add(b).wrapping_add(if Q as u16 - b <= a { 15 } else { 0 })
}

fn subtract(a: u16, b: u16) -> u16 {
    a.wrapping_sub(b).wrapping_sub(if a < b { 15 } else { 0 })
}

/// A factor a, made ready: `by` is 65536 a, and Q times `key` is `by` modulo 65536.
#[derive(Clone, Copy)]
struct Scale {
    by: u16,
    key: u16,
}

impl Scale {
    fn of(a: u16) -> Scale {
        let by = (a as u32 * 15 % Q) as u16;
        Scale { by, key: by.wrapping_mul(4369) }
    }
}

fn high(a: u16, b: u16) -> u16 {
    (a as u32 * b as u32 >> 16) as u16
}

/// The sum plus x times a factor, by Montgomery's reduction.
fn add_scaled(sum: u16, x: u16, scale: Scale) -> u16 {
    subtract(add(sum, high(x, scale.by)), high(x.wrapping_mul(scale.key), Q as u16))
}

/// Without an early end, so that it goes by vectors, as differences that stop at 0 do; both halves at a time.
fn all_within(list: &[u16], most: u16) -> bool {
    let (low, high) = list.split_at(list.len() / 2);
    let (odd, high) = high.split_at(high.len() - low.len());
    let past = |x: u16| x.saturating_sub(most);
    let first = odd.first().map_or(0, |&x| past(x));
    low.iter().zip(high).fold(first, |all, (&x, &y)| all | past(x) | past(y)) == 0
}

/// Test 3.
fn all_elements(list: &[u16]) -> bool {
    all_within(list, Q as u16 - 1)
}

/// Whether all are elements, no further than `most` from zero; the same way. From `most` + 1 on as many numbers are too far as `wide`.
fn all_near(list: &[u16], most: u16) -> bool {
    let wide = Q as u16 - 1 - 2 * most;
    let past = |x: u16| wide.saturating_sub(x.wrapping_sub(most + 1)) | x.saturating_sub(Q as u16 - 1);
    list.iter().fold(0, |far, &x| far | past(x)) == 0
}

/// Counts, or signed figures, which are lent as their residues.
#[derive(Clone, Copy, PartialEq)]
pub enum Use {
    Counts,
    Signed,
}

/// K, U, T and M of document 01.
#[derive(Clone, Copy, Default)]
pub struct Plan {
    pub users: u32,
    pub threshold: u32,
    pub collusion: u32,
    pub blocks: u32,
}

fn holds(set: u32, user: u32) -> bool {
    set >> (user - 1) & 1 == 1
}

impl Plan {
    fn is_good(self) -> bool {
        (3..=8).contains(&self.users)
            && 1 <= self.collusion
            && self.collusion < self.threshold
            && self.threshold < self.users
            && (1..=16).contains(&self.blocks)
    }

    fn items(self) -> usize {
        (self.threshold - self.collusion) as usize
    }

    pub fn places(self) -> usize {
        self.blocks as usize * self.items()
    }

    /// How far from zero a figure may lie.
    pub fn bound(self, usage: Use) -> u16 {
        BOUNDS[usage as usize][self.users as usize & 15]
    }

    fn is_usable(self, set: u32) -> bool {
        set >> self.users == 0 && self.threshold <= set.count_ones()
    }

    pub fn list_len(self) -> usize {
        let sets = USABLE[self.users as usize & 15][self.threshold as usize & 7] as usize;
        self.users as usize * self.places() + sets * (self.blocks * self.collusion) as usize
    }

    /// The shares for a set of the plan's users start behind those for the smaller usable sets that hold the user.
    fn reply_start(self, user: u32, set: u32) -> usize {
        let before: u32 = (0..set).map(|v| (holds(v, user) && self.threshold <= v.count_ones()) as u32).sum();
        self.places() + (before * self.blocks) as usize
    }

    /// The same of any plan, user and set, or the refusal's number.
    pub fn find_reply(self, user: u32, set: u32) -> Result<usize, u32> {
        match self.start_refusal(user) {
            0 if !self.is_usable(set) => Err(5),
            0 if !holds(set, user) => Err(6),
            0 => Ok(self.reply_start(user, set)),
            number => Err(number),
        }
    }

    pub fn key_len(self) -> usize {
        self.places() + HOLDING[self.users as usize & 15][self.threshold as usize & 7] as usize * self.blocks as usize
    }

    fn start_refusal(self, user: u32) -> u32 {
        if !self.is_good() {
            1
        } else if user < 1 || self.users < user {
            4
        } else {
            0
        }
    }
}

/// Numbers that are copied at a time.
const ROW: usize = 64;

/// The random list from raw bytes.
pub fn list_from_bytes(plan: Plan, bytes: &[u8], list: &mut [u16]) -> u32 {
    let (numbers, _) = bytes.as_chunks();
    if !plan.is_good() {
        1
    } else if list.len() != plan.list_len() {
        2
    } else if !is_enough(numbers, list.len()) {
        31
    } else {
        fill(numbers, list);
        0
    }
}

/// As many numbers are looked through as elements are missing, until none is.
fn is_enough(mut numbers: &[[u8; 2]], mut missing: usize) -> bool {
    while 0 < missing {
        let Some((row, rest)) = numbers.split_at_checked(missing) else { return false };
        numbers = rest;
        missing = count_skipped(row) as usize;
    }
    true
}

/// A row of numbers is copied; where one of them is to be skipped, it is gone through once more, one by one.
fn fill(mut numbers: &[[u8; 2]], mut list: &mut [u16]) {
    while !list.is_empty() {
        let (row, rest) = numbers.split_at(ROW.min(list.len()));
        let mut filled = row.len();
        let copied = match (row.first_chunk::<ROW>(), list.first_chunk_mut::<ROW>()) {
            (Some(row), Some(out)) => copy(row, out),
            _ => false,
        };
        if !copied {
            filled = 0;
            for x in row.iter().map(|&number| u16::from_le_bytes(number)).filter(|&x| (x as u32) < Q) {
                list[filled] = x;
                filled += 1;
            }
        }
        numbers = rest;
        list = &mut list[filled..];
    }
}

/// Whether all are elements. Without an early end, so that it goes by vectors, as counting in 16 bits does.
fn copy(numbers: &[[u8; 2]; ROW], out: &mut [u16; ROW]) -> bool {
    let mut past = 0;
    for (slot, &number) in out.iter_mut().zip(numbers) {
        *slot = u16::from_le_bytes(number);
        past |= slot.saturating_sub(Q as u16 - 1);
    }
    past == 0
}

fn count_skipped(numbers: &[[u8; 2]]) -> u16 {
    numbers.iter().map(|&number| (Q <= u16::from_le_bytes(number) as u32) as u16).sum()
}

fn key_refusal(plan: Plan, user: u32, list: &[u16], room: usize) -> u32 {
    match plan.start_refusal(user) {
        0 if list.len() != plan.list_len() || room != plan.key_len() => 2,
        0 if !all_elements(list) => 3,
        number => number,
    }
}

/// The key maker.
pub fn make_key(plan: Plan, user: u32, list: &[u16], out: &mut [u16]) -> u32 {
    let number = key_refusal(plan, user, list, out.len());
    if number != 0 {
        return number;
    }
    let (masks, noise) = list.split_at(plan.users as usize * plan.places());
    let (own, shares) = out.split_at_mut(plan.places());
    own.copy_from_slice(&masks[(user as usize - 1) * own.len()..][..own.len()]);
    match plan.items() {
        1 => write_by::<1>(plan, user, masks, noise, shares),
        2 => write_by::<2>(plan, user, masks, noise, shares),
        3 => write_by::<3>(plan, user, masks, noise, shares),
        4 => write_by::<4>(plan, user, masks, noise, shares),
        5 => write_by::<5>(plan, user, masks, noise, shares),
        _ => write_by::<6>(plan, user, masks, noise, shares),
    }
    0
}

/// One copy of the loops below for each U - T and T, so that their lengths are known.
fn write_by<const ITEMS: usize>(plan: Plan, user: u32, masks: &[u16], noise: &[u16], shares: &mut [u16]) {
    match plan.collusion {
        1 => write_sets::<ITEMS, 1>(plan, user, masks, noise, shares),
        2 => write_sets::<ITEMS, 2>(plan, user, masks, noise, shares),
        3 => write_sets::<ITEMS, 3>(plan, user, masks, noise, shares),
        4 => write_sets::<ITEMS, 4>(plan, user, masks, noise, shares),
        5 => write_sets::<ITEMS, 5>(plan, user, masks, noise, shares),
        _ => write_sets::<ITEMS, 6>(plan, user, masks, noise, shares),
    }
}

/// The masks of each user times the first columns, once a key, and their sums over the sets of the low and of the high users; then all
/// set numbers in rising order: a usable one has its noise, and where it holds the user its shares. Where even all low users would not
/// do, the sets with the same high users are passed over; with a low threshold they always would.
fn write_sets<const ITEMS: usize, const COLLUSION: usize>(
    plan: Plan,
    user: u32,
    masks: &[u16],
    mut noise: &[u16],
    mut shares: &mut [u16],
) {
    let blocks = plan.blocks as usize;
    let low: [u16; ITEMS] = array::from_fn(|j| INVERSES[user as usize + 1 + j & 15]);
    let high: [u16; COLLUSION] = array::from_fn(|j| INVERSES[user as usize + 1 + ITEMS + j & 15]);
    let mut products = NO_REPLY;
    for (row, masks) in products.iter_mut().zip(masks.chunks_exact(blocks * ITEMS)) {
        put_blocks(&[0; MOST_BLOCKS], &low, masks, &mut row[..blocks]);
    }
    let (low_rows, high_rows) = products[..plan.users as usize].split_at(HALF.min(plan.users as usize));
    let (low_sums, high_sums) = (sums_over(low_rows), sums_over(high_rows));
    let mut write = |set: usize| {
        let [x, y] = [set % SETS, set / SETS & SETS - 1];
        if ONES[x] + ONES[y] < plan.threshold {
            return;
        }
        let (here, rest) = noise.split_at(blocks * COLLUSION);
        noise = rest;
        if holds(set as u32, user) {
            let (part, rest) = mem::take(&mut shares).split_at_mut(blocks);
            shares = rest;
            put_blocks(&sum_rows(&low_sums[x], &high_sums[y]), &high, here, part);
        }
    };
    if plan.threshold <= HALF as u32 {
        (0..1usize << plan.users).for_each(write);
        return;
    }
    for first in (0..1usize << plan.users).step_by(SETS) {
        if plan.threshold <= ONES[first / SETS & SETS - 1] + HALF as u32 {
            (first..first + SETS).for_each(&mut write);
        }
    }
}

/// The low users, and how many sets they have; how many users a set of them has.
const HALF: usize = 4;
const SETS: usize = 1 << HALF;
const ONES: [u32; SETS] = [0, 1, 1, 2, 1, 2, 2, 3, 1, 2, 2, 3, 2, 3, 3, 4];

fn sum_rows(a: &Blocks, b: &Blocks) -> Blocks {
    array::from_fn(|i| add(a[i], b[i]))
}

/// The sums of the rows over each set: those with a row more follow those without it.
fn sums_over(rows: &[Blocks]) -> [Blocks; SETS] {
    let mut sums = [[0; MOST_BLOCKS]; SETS];
    for (i, row) in rows.iter().enumerate() {
        let (without, with) = sums.split_at_mut(1 << i);
        for (with, without) in with.iter_mut().zip(without) {
            *with = sum_rows(without, row);
        }
    }
    sums
}

/// Block by block a sum plus N numbers times factors. One factor and all blocks go by lanes.
fn put_blocks<const N: usize>(sums: &Blocks, factors: &[u16; N], numbers: &[u16], out: &mut [u16]) {
    if N == 1 {
        if let (Some(numbers), Some(out)) = (numbers.first_chunk(), out.first_chunk_mut()) {
            return put_row(sums, Scale::of(factors[0]), numbers, out);
        }
    }
    for ((out, &sum), numbers) in out.iter_mut().zip(sums).zip(numbers.as_chunks::<N>().0) {
        let weighed: u64 = factors.iter().zip(numbers).map(|(&c, &x)| c as u64 * x as u64).sum();
        *out = reduced(sum as u64 + weighed);
    }
}

fn put_row(sums: &Blocks, scale: Scale, numbers: &Blocks, out: &mut Blocks) {
    *out = array::from_fn(|b| add_scaled(sums[b], numbers[b], scale));
}

#[derive(Clone, Copy)]
pub enum Stage {
    Fresh,
    Sent,
    Answered(u32),
}

/// An airfield end.
#[derive(Clone, Copy)]
pub struct Client {
    pub plan: Plan,
    pub user: u32,
    pub usage: Use,
    pub round: u32,
    pub stage: Stage,
}

impl Client {
    fn figures_good(&self, figures: &[u16]) -> bool {
        let bound = self.plan.bound(self.usage);
        match self.usage {
            Use::Counts => all_within(figures, bound),
            Use::Signed => all_near(figures, bound),
        }
    }

    /// Figures within the bound are elements, so that one look at them tells of 3 and 32 where nothing is refused.
    fn first_refusal(&self, key: &[u16], figures: &[u16], room: usize) -> u32 {
        let places = || self.plan.places();
        match self.plan.start_refusal(self.user) {
            0 if !matches!(self.stage, Stage::Fresh) => 18,
            0 if key.len() != self.plan.key_len() => 2,
            0 if figures.len() != places() || room != places() => 2,
            0 if self.figures_good(figures) && all_elements(key) => 0,
            0 if !all_elements(key) || !all_elements(figures) => 3,
            0 => 32,
            number => number,
        }
    }

    pub fn first_message(&mut self, key: &[u16], figures: &[u16], out: &mut [u16]) -> u32 {
        let number = self.first_refusal(key, figures, out.len());
        if number != 0 {
            return number;
        }
        for ((x, &figure), &mask) in out.iter_mut().zip(figures).zip(key) {
            let sum = figure as u32 + mask as u32;
            *x = sum.wrapping_sub(if sum < Q { 0 } else { Q }) as u16;
        }
        self.stage = Stage::Sent;
        0
    }

    fn reply_refusal(&self, key: &[u16], set: u32, round: u32) -> u32 {
        match self.plan.start_refusal(self.user) {
            0 if matches!(self.stage, Stage::Fresh) => 18,
            0 if key.len() != self.plan.key_len() => 2,
            0 if !all_elements(key) => 3,
            0 if !self.plan.is_usable(set) => 5,
            0 if !holds(set, self.user) => 6,
            0 if round != self.round => 33,
            0 if matches!(self.stage, Stage::Answered(other) if other != set) => 19,
            number => number,
        }
    }

    /// The part of the key with the shares for the set that is announced for the round, or the refusal's number.
    pub fn reply<'a>(&mut self, key: &'a [u16], set: u32, round: u32) -> Result<&'a [u16], u32> {
        let number = self.reply_refusal(key, set, round);
        if number != 0 {
            return Err(number);
        }
        self.stage = Stage::Answered(set);
        Ok(&key[self.plan.reply_start(self.user, set)..][..self.plan.blocks as usize])
    }
}

#[derive(Clone, Copy, PartialEq)]
pub enum Phase {
    Unplanned,
    Idle,
    Gathering,
    Replying,
}

/// The pooling service. An element that is held stands as itself plus 1, and 0 where none is held.
#[derive(Clone, Copy)]
pub struct Service {
    pub phase: Phase,
    pub plan: Plan,
    pub places: u32,
    pub round: u32,
    pub survivors: u32,
    pub first: [[u16; MOST_PLACES]; MOST_USERS],
    pub reply: [Blocks; MOST_USERS],
}

const NO_FIRST: [[u16; MOST_PLACES]; MOST_USERS] = [[0; MOST_PLACES]; MOST_USERS];
const NO_REPLY: [Blocks; MOST_USERS] = [[0; MOST_BLOCKS]; MOST_USERS];

/// Holds an element where none is held. A repeat changes nothing, and of another one 13 is answered. A new element and a repeat take the
/// same way, so that there is no branch between them to predict.
fn hold(held: &mut u16, element: u32) -> u32 {
    let wanted = element as u16 + 1;
    let left = if *held == 0 { wanted } else { *held };
    *held = left;
    if left == wanted {
        0
    } else {
        13
    }
}

/// The number that two bytes hold, the low one first.
pub fn two_bytes(low: u8, high: u8) -> u32 {
    u16::from_le_bytes([low, high]).into()
}

/// The users whose first `each` elements are held.
fn complete_set<const N: usize>(held: &[[u16; N]], each: usize) -> u32 {
    held.iter().enumerate().filter(|(_, row)| row[..each].iter().all(|&x| x != 0)).map(|(k, _)| 1 << k).sum()
}

impl Service {
    pub fn new() -> Service {
        let plan = Plan::default();
        Service { phase: Phase::Unplanned, plan, places: 0, round: 0, survivors: 0, first: NO_FIRST, reply: NO_REPLY }
    }

    pub fn plan(&mut self, plan: Plan) -> u32 {
        if self.phase != Phase::Unplanned {
            return 11;
        }
        if !plan.is_good() {
            return 1;
        }
        *self = Service { phase: Phase::Idle, plan, places: plan.places() as u32, ..Service::new() };
        0
    }

    pub fn open(&mut self, round: u32) -> u32 {
        if self.phase == Phase::Unplanned {
            return 11;
        }
        if round <= self.round {
            return 17;
        }
        self.phase = Phase::Gathering;
        self.round = round;
        self.survivors = 0;
        self.first = NO_FIRST;
        self.reply = NO_REPLY;
        0
    }

    /// 11, 12 of a record that is for one phase.
    fn not_in(&self, phase: Phase) -> u32 {
        if self.phase == phase {
            0
        } else if self.phase == Phase::Unplanned {
            11
        } else {
            12
        }
    }

    pub fn first_element(&mut self, user: u32, place: u32, element: u32) -> u32 {
        let number = self.not_in(Phase::Gathering);
        if number != 0 {
            return number;
        }
        if user == 0 || self.plan.users < user {
            return 4;
        }
        if self.places <= place {
            return 8;
        }
        if Q <= element {
            return 3;
        }
        hold(&mut self.first[user as usize - 1][place as usize], element)
    }

    /// Takes first elements as long as they are taken quietly, and answers how many bytes they are.
    pub fn run_first(&mut self, bytes: &[u8]) -> usize {
        let (users, places) = (self.plan.users, self.places as usize);
        let (mut row, mut from): (&mut [u16], _) = (&mut [], 0);
        let mut records = 0;
        for &[kind, user, a, b, c, d] in bytes.as_chunks().0 {
            let tag = two_bytes(kind, user);
            if tag != from {
                if kind != 3 || user == 0 || users < user as u32 {
                    break;
                }
                (row, from) = (&mut self.first[user as usize - 1 & 7][..places], tag);
            }
            let element = two_bytes(c, d);
            let Some(held) = row.get_mut(two_bytes(a, b) as usize) else { break };
            if Q <= element || hold(held, element) != 0 {
                break;
            }
            records += 1;
        }
        6 * records
    }

    pub fn close(&mut self) -> u32 {
        let number = self.not_in(Phase::Gathering);
        if number != 0 {
            return number;
        }
        let set = complete_set(&self.first[..self.plan.users as usize], self.places as usize);
        if set.count_ones() < self.plan.threshold {
            return 15;
        }
        self.phase = Phase::Replying;
        self.survivors = set;
        self.reply = NO_REPLY;
        0
    }

    pub fn reply_element(&mut self, user: u32, block: u32, element: u32) -> u32 {
        let number = self.not_in(Phase::Replying);
        if number != 0 {
            return number;
        }
        if user == 0 || self.plan.users < user {
            return 4;
        }
        if self.plan.blocks <= block {
            return 8;
        }
        if Q <= element {
            return 3;
        }
        if !holds(self.survivors, user) {
            return 14;
        }
        hold(&mut self.reply[user as usize - 1][block as usize], element)
    }

    /// Takes replies as long as they are taken quietly, and answers how many bytes they are.
    pub fn run_reply(&mut self, bytes: &[u8]) -> usize {
        let (users, blocks) = (self.plan.users, self.plan.blocks as usize);
        let (mut row, mut from): (&mut [u16], _) = (&mut [], 0);
        let mut records = 0;
        for &[kind, user, block, c, d] in bytes.as_chunks().0 {
            let tag = two_bytes(kind, user);
            if tag != from {
                if kind != 5 || user == 0 || users < user as u32 || !holds(self.survivors, user as u32) {
                    break;
                }
                (row, from) = (&mut self.reply[user as usize - 1 & 7][..blocks], tag);
            }
            let element = two_bytes(c, d);
            let Some(held) = row.get_mut(block as usize) else { break };
            if Q <= element || hold(held, element) != 0 {
                break;
            }
            records += 1;
        }
        5 * records
    }

    /// The totals go to the first L places. The user set aside, 0 where all replies agree; or the refusal's number.
    pub fn finish(&mut self, totals: &mut [u16; MOST_PLACES]) -> Result<u32, u32> {
        let number = self.not_in(Phase::Replying);
        if number != 0 {
            return Err(number);
        }
        let set = complete_set(&self.reply[..self.plan.users as usize], self.plan.blocks as usize);
        if set.count_ones() < self.plan.threshold {
            return Err(15);
        }
        let mut unknowns = NO_REPLY;
        let (size, wanted) = (self.plan.threshold as usize, self.plan.items());
        let Some(aside) = explain(size, wanted, set, &self.reply, &mut unknowns) else {
            return Err(16);
        };
        *totals = self.totals(&unknowns);
        self.phase = Phase::Idle;
        self.survivors = 0;
        self.first = NO_FIRST;
        self.reply = NO_REPLY;
        Ok(aside)
    }

    /// The sums of the survivors' first messages, less the sums of their masks.
    fn totals(&self, sums: &[Blocks; MOST_USERS]) -> [u16; MOST_PLACES] {
        let firsts = self.first_sums();
        let mut totals = [0; MOST_PLACES];
        let items = self.plan.items();
        for (block, (totals, firsts)) in totals.chunks_exact_mut(items).zip(firsts.chunks_exact(items)).enumerate() {
            if block == self.plan.blocks as usize {
                break;
            }
            for ((total, &first), sum) in totals.iter_mut().zip(firsts).zip(sums) {
                *total = ((first + Q - sum[block] as u32) % Q) as u16;
            }
        }
        totals
    }

    /// By runs of places whose sums stay in registers.
    fn first_sums(&self) -> [u32; MOST_PLACES] {
        let mut firsts = [0; MOST_PLACES];
        let runs = self.places.div_ceil(MOST_BLOCKS as u32) as usize;
        for (run, out) in firsts.as_chunks_mut::<MOST_BLOCKS>().0.iter_mut().take(runs).enumerate() {
            let mut sums = [0; MOST_BLOCKS];
            for (k, row) in self.first.iter().enumerate() {
                if self.survivors >> k & 1 == 1 {
                    for (sum, &x) in sums.iter_mut().zip(&row.as_chunks::<MOST_BLOCKS>().0[run]) {
                        *sum += x.saturating_sub(1) as u32;
                    }
                }
            }
            *out = sums;
        }
        firsts
    }
}

/// An element for each block: the systems of all blocks are solved side by side.
type Blocks = [u16; MOST_BLOCKS];

/// The product over all points of (own + other) / (own - own'), for each own point: two factors at a time.
fn weights(own: &[u8], other: &[u8]) -> [u16; MOST_USERS] {
    let mut out = [0; MOST_USERS];
    for (weight, &x) in out.iter_mut().zip(own) {
        let factor = |i: usize| (x + other[i]) as u64 * GAPS[(7 + x - own[i]) as usize & 15] as u64;
        let mut product = 1;
        let mut i = 0;
        while i + 1 < own.len().min(other.len()) {
            product = product * factor(i) * factor(i + 1) % Q as u64;
            i += 2;
        }
        if i < own.len() {
            product = product * factor(i) % Q as u64;
        }
        *weight = product as u16;
    }
    out
}

/// Block by block Σ values[i] / (x + points[i]).
fn dots(x: u8, points: &[u8], values: &[Blocks]) -> Blocks {
    let mut sums = [0; MOST_BLOCKS];
    for (&y, row) in points.iter().zip(values) {
        let scale = Scale::of(INVERSES[(x + y) as usize & 15]);
        sums = array::from_fn(|b| add_scaled(sums[b], row[b], scale));
    }
    sums
}

fn scaled(weight: u16, row: &Blocks) -> Blocks {
    let scale = Scale::of(weight);
    row.map(|x| add_scaled(0, x, scale))
}

/// The first unknowns of the Cauchy systems with these rows, as many as are wanted, by the closed solution.
fn solve(rows: &[u8], columns: &[u8], values: &[Blocks], wanted: usize, unknowns: &mut [Blocks; MOST_USERS]) {
    let mut weighed = [[0; MOST_BLOCKS]; MOST_USERS];
    for ((out, weight), row) in weighed.iter_mut().zip(weights(rows, columns)).zip(values) {
        *out = scaled(weight, row);
    }
    for ((out, weight), &column) in unknowns.iter_mut().zip(weights(columns, rows)).zip(&columns[..wanted]) {
        *out = scaled(weight, &dots(column, rows, &weighed));
    }
}

/// Writes the users of a set and their replies, in rising number; answers with how many there are.
fn gather(
    set: u32,
    reply: &[Blocks; MOST_USERS],
    rows: &mut [u8; MOST_USERS],
    values: &mut [Blocks; MOST_USERS],
) -> usize {
    let mut count = 0;
    for (k, row) in reply.iter().enumerate() {
        if set >> k & 1 == 1 {
            rows[count & 7] = k as u8 + 1;
            values[count & 7] = row.map(|x| x.saturating_sub(1));
            count += 1;
        }
    }
    count
}

/// Writes the unknowns that explain the complete replies, those wanted alone where just enough reply, and answers with the user set aside,
/// 0 where all agree; or with none where no single user can be. The first `size` rows are solved. If one of the further rows does not fit,
/// it is set aside; if more do not, it is none of them, and as many of the first rows go behind them, until each has been a further one.
fn explain(
    size: usize,
    wanted: usize,
    set: u32,
    reply: &[Blocks; MOST_USERS],
    unknowns: &mut [Blocks; MOST_USERS],
) -> Option<u32> {
    const COLUMNS: [u8; MOST_USERS] = [1, 2, 3, 4, 5, 6, 7, 0];
    let columns = &COLUMNS[..size];
    let (mut rows, mut values) = ([0; MOST_USERS], NO_REPLY);
    let count = gather(set, reply, &mut rows, &mut values);
    let (rows, values) = (&mut rows[..count], &mut values[..count]);
    let spare = count - size;
    let wanted = if spare == 0 { wanted } else { size };
    let mut from = 0;
    loop {
        solve(&rows[..size], columns, &values[..size], wanted, unknowns);
        let further = rows[size..].iter().zip(&values[size..]);
        let mut misfits = further.filter(|(&row, wanted)| dots(row, columns, unknowns) != **wanted);
        match (misfits.next(), misfits.next()) {
            (None, _) => return Some(0),
            (Some((&row, _)), None) if 2 <= spare => return Some(row as u32),
            _ if spare < 2 || size <= from => return None,
            _ => (),
        }
        rows.rotate_left(spare);
        values.rotate_left(spare);
        from += spare;
    }
}
