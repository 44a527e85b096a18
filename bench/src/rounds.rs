//! What is measured on: a plan's random list, keys, messages and replies, and streams of records.
use crate::fast::{make_key, Client, Plan, Stage, Use, Q};

/// Of all ends, and of the services that are called.
pub const ROUND: u32 = 1;

/// Numbers that look random, the same in every run.
pub struct Random(pub u64);

impl Random {
    pub fn below(&mut self, n: u32) -> u32 {
        self.0 ^= self.0 << 13;
        self.0 ^= self.0 >> 7;
        self.0 ^= self.0 << 17;
        ((self.0 >> 32) * n as u64 >> 32) as u32
    }

    /// So many numbers from 0 to `most`.
    pub fn within(&mut self, n: usize, most: u16) -> Vec<u16> {
        (0..n).map(|_| self.below(most as u32 + 1) as u16).collect()
    }

    /// A row within the bound of the use, as it is lent.
    fn figures(&mut self, plan: Plan, usage: Use) -> Vec<u16> {
        let bound = plan.bound(usage);
        match usage {
            Use::Counts => self.within(plan.places(), bound),
            Use::Signed => {
                let shifted = self.within(plan.places(), 2 * bound);
                shifted.iter().map(|&x| ((x as u32 + Q - bound as u32) % Q) as u16).collect()
            }
        }
    }
}

pub const fn plan(users: u32, threshold: u32, collusion: u32, blocks: u32) -> Plan {
    Plan { users, threshold, collusion, blocks }
}

pub fn named(p: Plan) -> String {
    format!("{} {} {} {}", p.users, p.threshold, p.collusion, p.blocks)
}

/// A round in which all users send, survive and reply; row k - 1 is user k's. All have one use.
pub struct Round {
    pub plan: Plan,
    pub everyone: u32,
    pub list: Vec<u16>,
    pub keys: Vec<Vec<u16>>,
    pub figures: Vec<Vec<u16>>,
    pub messages: Vec<Vec<u16>>,
    pub replies: Vec<Vec<u16>>,
}

impl Round {
    pub fn new(plan: Plan, random: &mut Random) -> Round {
        Round::of_use(plan, Use::Counts, random)
    }

    pub fn of_use(plan: Plan, usage: Use, random: &mut Random) -> Round {
        let everyone = (1 << plan.users) - 1;
        let list = random.within(plan.list_len(), Q as u16 - 1);
        let mut round =
            Round { plan, everyone, list, keys: vec![], figures: vec![], messages: vec![], replies: vec![] };
        for user in 1..=plan.users {
            let mut key = vec![0; plan.key_len()];
            let mut message = vec![0; plan.places()];
            let figures = random.figures(plan, usage);
            let mut end = Client { plan, user, usage, round: ROUND, stage: Stage::Fresh };
            assert_eq!(make_key(plan, user, &round.list, &mut key), 0);
            assert_eq!(end.first_message(&key, &figures, &mut message), 0);
            round.replies.push(end.reply(&key, everyone, ROUND).unwrap().to_vec());
            round.keys.push(key);
            round.figures.push(figures);
            round.messages.push(message);
        }
        round
    }

    /// All first elements, as user, place and element.
    pub fn firsts(&self) -> Vec<(u32, u32, u32)> {
        self.firsts_of(|figure| figure)
    }

    /// All first elements where each figure is changed into another.
    fn firsts_of(&self, other: impl Fn(u32) -> u32) -> Vec<(u32, u32, u32)> {
        let first = |(&figure, &mask): (&u16, &u16)| ((other(figure as u32) + mask as u32) % Q) as u16;
        elements(self.figures.iter().zip(&self.keys).map(|(figures, key)| figures.iter().zip(key).map(first).collect()))
    }

    /// The replies, that of one user false in every block; 0 is nobody.
    pub fn falsified(&self, user: u32) -> Vec<Vec<u16>> {
        let mut replies = self.replies.clone();
        for (row, k) in replies.iter_mut().zip(1..) {
            if k == user {
                row.iter_mut().for_each(|x| *x = ((*x as u32 + 1) % Q) as u16);
            }
        }
        replies
    }
}

/// The elements of all users' rows, as user, place and element.
fn elements(rows: impl IntoIterator<Item = Vec<u16>>) -> Vec<(u32, u32, u32)> {
    let of_user = |(user, row): (u32, Vec<u16>)| (0..).zip(row).map(move |(place, x)| (user, place, x as u32));
    (1..).zip(rows).flat_map(of_user).collect()
}

/// A stream of records.
pub struct Records(pub Vec<u8>);

impl Records {
    fn plan(p: Plan) -> Records {
        Records(vec![1, p.users as u8, p.threshold as u8, p.collusion as u8, p.blocks as u8])
    }

    fn open(&mut self, round: u32) {
        self.0.push(2);
        self.0.extend(round.to_le_bytes());
    }

    fn first(&mut self, user: u32, place: u32, element: u32) {
        self.0.extend([3, user as u8]);
        self.0.extend((place as u16).to_le_bytes());
        self.0.extend((element as u16).to_le_bytes());
    }

    fn reply(&mut self, user: u32, block: u32, element: u32) {
        self.0.extend([5, user as u8, block as u8]);
        self.0.extend((element as u16).to_le_bytes());
    }

    fn close(&mut self) {
        self.0.push(4);
    }

    fn finish(&mut self) {
        self.0.push(6);
    }

    /// Round upon round, with nothing refused.
    pub fn accepted(size: usize) -> Records {
        Records::rounds(size, 1, false, |_| 0)
    }

    /// The same with the users in turn at each place and block.
    pub fn crossed(size: usize) -> Records {
        Records::rounds(size, 1, true, |_| 0)
    }

    /// The same with every record twice: elements are taken again, and the others refused.
    pub fn repeated(size: usize) -> Records {
        Records::rounds(size, 2, false, |_| 0)
    }

    /// The same with one false reply in each round, of all users in turn.
    pub fn falsified(size: usize) -> Records {
        Records::rounds(size, 1, false, |number| 1 + number % 8)
    }

    /// Each figure is one more than in the round before, and 0 behind the bound. Each record comes so many times. The number of a round
    /// tells whose reply is false; 0 is nobody.
    fn rounds(size: usize, times: usize, crossed: bool, false_user: fn(u32) -> u32) -> Records {
        let round = Round::new(plan(8, 2, 1, 16), &mut Random(1));
        let figures = round.plan.bound(Use::Counts) as u32 + 1;
        let mut records = Records(Records::plan(round.plan).0.repeat(times));
        let mut number = 0;
        while records.0.len() < size {
            number += 1;
            let mut firsts = round.firsts_of(|figure| (figure + number) % figures);
            let mut replies = elements(round.falsified(false_user(number)));
            if crossed {
                firsts.sort_by_key(|&(_, place, _)| place);
                replies.sort_by_key(|&(_, block, _)| block);
            }
            records.repeat(times, |records| records.open(number));
            for (user, place, x) in firsts {
                records.repeat(times, |records| records.first(user, place, x));
            }
            records.repeat(times, Records::close);
            for (user, block, x) in replies {
                records.repeat(times, |records| records.reply(user, block, x));
            }
            records.repeat(times, Records::finish);
        }
        records
    }

    fn repeat(&mut self, times: usize, put: impl Fn(&mut Records)) {
        (0..times).for_each(|_| put(self));
    }

    /// One round is opened and all its first elements are held; everything behind that is refused, in eight ways in turn.
    pub fn refused(size: usize) -> Records {
        let round = Round::new(plan(8, 2, 1, 16), &mut Random(1));
        let firsts = round.firsts();
        let mut records = Records::plan(round.plan);
        records.open(1);
        for &(user, place, x) in &firsts {
            records.first(user, place, x);
        }
        while records.0.len() < size {
            for chunk in firsts.chunks_exact(8) {
                let (user, place, x) = chunk[0];
                records.first(user, place, (x + 1) % Q); // another is held
                records.reply(user, 0, x); // not in this phase
                records.first(9, place, x); // no such user
                records.first(user, place, (x + Q - 1) % Q); // another is held
                records.first(user, 16, x); // no such place
                records.first(user, place, Q); // no element
                records.finish(); // not in this phase
                records.open(1); // not above the last
            }
        }
        records
    }

    /// Rounds in which each first element comes twice, by chance at once, as it was or changed, or behind the close; beside each reply stands
    /// one for no such block, and one user drops out.
    pub fn mixed(size: usize) -> Records {
        let mut random = Random(2);
        let round = Round::new(plan(8, 7, 1, 16), &mut random);
        let mut records = Records::plan(round.plan);
        let mut number = 0;
        while records.0.len() < size {
            number += 1;
            records.open(number);
            let mut late = vec![];
            for (user, place, x) in round.firsts() {
                records.first(user, place, x);
                match random.below(4) {
                    0 => records.first(user, place, x),
                    1 => records.first(user, place, (x + 1) % Q), // another is held
                    _ => late.push((user, place, x)),
                }
            }
            records.close();
            for (user, place, x) in late {
                records.first(user, place, x); // not in this phase
            }
            let dropped = random.below(8) as usize;
            for (k, row) in round.replies.iter().enumerate() {
                for (block, &x) in row.iter().enumerate() {
                    if k != dropped {
                        records.reply(k as u32 + 1, block as u32, x as u32);
                    }
                    records.reply(k as u32 + 1, 16 + block as u32, x as u32); // no such block
                }
            }
            records.finish();
        }
        records
    }
}
