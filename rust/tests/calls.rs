//! The package's calls on every plan, and on numbers that fit none.

use cutawheno::{read_total, End, Finished, Plan, Refusal, Service, Use, LONGEST_KEY, LONGEST_LIST, MOST_PLACES};

const Q: u32 = 65521;
/// A round of which all four bytes differ.
const ROUND: u32 = 0x87654321;

/// Numbers from a seed (a linear congruential generator, its high half).
struct Random(u64);

impl Random {
    fn below(&mut self, bound: u32) -> u32 {
        self.0 = self.0.wrapping_mul(6364136223846793005).wrapping_add(1442695040888963407);
        (self.0 >> 33) as u32 % bound
    }

    fn elements(&mut self, count: usize) -> Vec<u16> {
        (0..count).map(|_| self.below(Q) as u16).collect()
    }

    /// A row of a plan whose largest figure is this.
    fn figures(&mut self, plan: Plan, largest: u16) -> Vec<u16> {
        (0..plan.row_len()).map(|_| self.below(u32::from(largest) + 1) as u16).collect()
    }

    fn usable_set(&mut self, plan: Plan) -> u32 {
        loop {
            let set = self.below(1 << plan.users);
            if set.count_ones() >= plan.threshold {
                return set;
            }
        }
    }

    /// Mostly small, now and then at the edge of what fits.
    fn any(&mut self) -> u32 {
        match self.below(8) {
            0 => u32::MAX - self.below(2),
            1 => 65519 + self.below(18),
            _ => self.below(20),
        }
    }

    fn any_plan(&mut self) -> Plan {
        Plan { users: self.any(), threshold: self.any(), collusion: self.any(), blocks: self.any() }
    }
}

fn plans() -> impl Iterator<Item = Plan> {
    let numbers =
        (3..=8).flat_map(|users| (2..users).flat_map(move |threshold| (1..threshold).map(move |collusion| (users, threshold, collusion))));
    numbers.flat_map(|(users, threshold, collusion)| [1, 3, 16].map(|blocks| Plan { users, threshold, collusion, blocks }))
}

fn holds(set: u32, user: u32) -> bool {
    set >> (user - 1) & 1 == 1
}

/// Document 02's rule: 65520 / K, rounded down.
fn largest_figure(plan: Plan) -> u16 {
    (65520 / plan.users) as u16
}

/// Document 02's rule: 32760 / K, rounded down.
fn furthest_signed(plan: Plan) -> i32 {
    32760 / plan.users as i32
}

/// Modulo q.
fn residue_of(value: i32) -> u16 {
    value.rem_euclid(Q as i32) as u16
}

fn key_of(plan: Plan, user: u32, list: &[u16]) -> Vec<u16> {
    let mut key = vec![0; plan.key_len()];
    plan.make_key(user, list, &mut key).unwrap();
    key
}

/// A round in which the set survives, with a row for each member, whose end is of the use that its number gives: closed, and the replies.
fn closed(plan: Plan, list: &[u16], survivors: u32, rows: &[Vec<u16>], usage: fn(u32) -> Use) -> (Service, Vec<(u32, Vec<u16>)>) {
    let mut service = Service::new();
    service.plan(plan).unwrap();
    service.open(ROUND).unwrap();
    let mut ends = Vec::new();
    for (user, figures) in (1..=plan.users).filter(|&user| holds(survivors, user)).zip(rows) {
        let (key, mut message) = (key_of(plan, user, list), vec![0; plan.row_len()]);
        let mut end = End::start(plan, user, usage(user), ROUND).unwrap();
        end.first_message(&key, figures, &mut message).unwrap();
        for (place, &element) in (0..).zip(&message) {
            service.first_element(user, place, element.into()).unwrap();
        }
        ends.push((user, end, key));
    }
    assert_eq!(service.close(), Ok(survivors));
    // an end that was kept and resumed answers as before
    let reply = |end: &End, key: &[u16]| End::resume(end.numbers()).reply(key, survivors, ROUND).unwrap().to_vec();
    let replies = ends.iter().map(|(user, end, key)| (*user, reply(end, key))).collect();
    (service, replies)
}

fn send_replies(service: &mut Service, replies: &[(u32, Vec<u16>)]) {
    for (user, shares) in replies {
        for (block, &share) in (0..).zip(shares) {
            service.reply_element(*user, block, share.into()).unwrap();
        }
    }
}

/// A whole round, as above, in which all replies come: the totals.
fn pooled(plan: Plan, list: &[u16], survivors: u32, rows: &[Vec<u16>], usage: fn(u32) -> Use) -> Vec<u32> {
    let (mut service, replies) = closed(plan, list, survivors, rows, usage);
    send_replies(&mut service, &replies);
    let mut totals = [7; MOST_PLACES];
    let finished = service.finish(&mut totals).unwrap();
    assert_eq!(finished.aside, None);
    finished.totals.iter().map(|&sum| sum.into()).collect()
}

/// The total is the whole-number sum of the survivors' figures, place by place.
#[test]
fn every_plan_gives_the_survivors_total() {
    let mut random = Random(1);
    for plan in plans() {
        let (list, survivors) = (random.elements(plan.list_len()), random.usable_set(plan));
        let rows: Vec<Vec<u16>> = (0..survivors.count_ones()).map(|_| random.figures(plan, largest_figure(plan))).collect();
        let total: Vec<u32> = (0..plan.row_len()).map(|place| rows.iter().map(|row| u32::from(row[place])).sum()).collect();
        assert_eq!(pooled(plan, &list, survivors, &rows, |_| Use::Counts), total);
    }
}

/// Also where all airfields report the largest figure everywhere: each K divides 65520, which is then the total.
#[test]
fn the_largest_total_is_a_whole_number_sum() {
    let mut random = Random(5);
    for users in 3..=8 {
        let plan = Plan { users, threshold: 2, collusion: 1, blocks: 3 };
        let rows = vec![vec![largest_figure(plan); 3]; users as usize];
        assert_eq!(pooled(plan, &random.elements(plan.list_len()), (1 << users) - 1, &rows, |_| Use::Counts), [65520; 3]);
    }
}

/// As the reader reads it, the total of signed figures is their whole-number sum; now and then airfields are silent.
#[test]
fn every_plan_gives_the_survivors_signed_total() {
    let mut random = Random(8);
    for plan in plans() {
        let (list, survivors, furthest) = (random.elements(plan.list_len()), random.usable_set(plan), furthest_signed(plan));
        let mut row = || -> Vec<i32> { (0..plan.row_len()).map(|_| random.below(2 * furthest as u32 + 1) as i32 - furthest).collect() };
        let rows: Vec<Vec<i32>> = (0..survivors.count_ones()).map(|_| row()).collect();
        let lent: Vec<Vec<u16>> = rows.iter().map(|row| row.iter().map(|&figure| plan.residue(figure).unwrap()).collect()).collect();
        let sums: Vec<i32> = (0..plan.row_len()).map(|place| rows.iter().map(|row| row[place]).sum()).collect();
        let totals = pooled(plan, &list, survivors, &lent, |_| Use::Signed);
        assert_eq!(totals, sums.iter().map(|&sum| residue_of(sum).into()).collect::<Vec<u32>>());
        assert_eq!(totals.iter().map(|&total| read_total(Use::Signed, total).unwrap()).collect::<Vec<_>>(), sums);
    }
}

/// All airfields at the far end, below zero, at zero and above: each K divides 32760.
#[test]
fn the_furthest_signed_totals_are_whole_number_sums() {
    let mut random = Random(9);
    for users in 3..=8 {
        let plan = Plan { users, threshold: 2, collusion: 1, blocks: 3 };
        let furthest = furthest_signed(plan);
        let rows = vec![[-furthest, 0, furthest].map(residue_of).to_vec(); users as usize];
        let totals = pooled(plan, &random.elements(plan.list_len()), (1 << users) - 1, &rows, |_| Use::Signed);
        assert_eq!(totals, [32761, 0, 32760]);
        assert_eq!(totals.iter().map(|&total| read_total(Use::Signed, total)).collect::<Vec<_>>(), [Ok(-32760), Ok(0), Ok(32760)]);
    }
}

/// Each end goes by its own use, whatever the others are; the total is the sum modulo q.
#[test]
fn uses_may_differ_in_one_round() {
    let plan = Plan { users: 3, threshold: 2, collusion: 1, blocks: 1 };
    let usage = |user| if user == 2 { Use::Signed } else { Use::Counts };
    let list = [100, 200, 300, 12, 60, 40, 120];
    assert_eq!(pooled(plan, &list, 7, &[vec![3], vec![65507], vec![2]], usage), [65512]);
    assert_eq!(pooled(plan, &list, 7, &[vec![21840], vec![54601], vec![21840]], usage), [32760]);
    assert_eq!(pooled(plan, &list, 3, &[vec![10], vec![65507]], usage), [65517]);
}

/// Every sum of signed figures is read back from its residue, and every count is itself.
#[test]
fn totals_are_read_by_their_use() {
    assert!((-32760..=32760).all(|sum| read_total(Use::Signed, residue_of(sum).into()) == Ok(sum)));
    assert!((0..=65520).all(|total| read_total(Use::Counts, total as u32) == Ok(total)));
    let read = |total| read_total(Use::Signed, total).unwrap();
    assert_eq!([0, 1, 32760, 32761, 65507, 65520].map(read), [0, 1, 32760, -32760, -14, -1]);
    for total in [65521, 65522, 65535, 65536, 1 << 31, u32::MAX] {
        assert_eq!([Use::Counts, Use::Signed].map(|usage| read_total(usage, total)), [Err(Refusal::BadElement); 2]);
    }
}

/// Every signed figure of a plan has its residue; what lies further, and every figure of no plan, is refused.
#[test]
fn residues_go_by_the_plan() {
    for plan in plans() {
        let furthest = furthest_signed(plan);
        assert!((-furthest..=furthest).all(|figure| plan.residue(figure) == Ok(residue_of(figure))));
        for beyond in [furthest + 1, -furthest - 1, 32760, -32760, 65507, 65521, -65521, i32::MAX, i32::MIN] {
            assert_eq!(plan.residue(beyond), Err(Refusal::FigureBeyond));
        }
        let bad = Plan { threshold: plan.users, ..plan };
        assert_eq!([0, -14, i32::MIN].map(|figure| bad.residue(figure)), [Err(Refusal::BadPlan); 3]);
    }
    let residue = |users, figure| Plan { users, threshold: 2, collusion: 1, blocks: 1 }.residue(figure);
    assert_eq!([-4095, -14, -1, 0, 1, 4095].map(|figure| residue(8, figure)), [61426, 65507, 65520, 0, 1, 4095].map(Ok));
    assert_eq!([-10920, 10920].map(|figure| residue(3, figure)), [54601, 10920].map(Ok));
}

#[test]
fn the_largest_figure_goes_by_the_number_of_airfields() {
    let bound = |users, threshold, collusion, blocks| {
        [Use::Counts, Use::Signed].map(|usage| Plan { users, threshold, collusion, blocks }.figure_bound(usage))
    };
    assert_eq!([bound(8, 2, 1, 16), bound(3, 2, 1, 16)], [[8190, 4095], [21840, 10920]]);
    assert!(plans().all(|plan| plan.figure_bound(Use::Counts) == largest_figure(plan)));
    assert!(plans().all(|plan| i32::from(plan.figure_bound(Use::Signed)) == furthest_signed(plan)));
    assert_eq!([bound(2, 2, 1, 1), bound(9, 2, 1, 1), bound(8, 8, 1, 1), bound(8, 2, 2, 1), bound(8, 2, 0, 1)], [[0; 2]; 5]);
    assert_eq!([bound(8, 2, 1, 0), bound(8, 2, 1, 17), bound(0, 0, 0, 0), bound(u32::MAX, 2, 1, 1)], [[0; 2]; 4]);
}

/// Wherever it stands, and the end sends the largest figure afterwards.
#[test]
fn a_larger_figure_is_refused() {
    let mut random = Random(6);
    for plan in plans() {
        let (user, largest) = (1 + random.below(plan.users), largest_figure(plan));
        let key = key_of(plan, user, &random.elements(plan.list_len()));
        let mut end = End::start(plan, user, Use::Counts, ROUND).unwrap();
        let (fresh, mut message) = (end.numbers(), vec![7; plan.row_len()]);
        for (place, larger) in [0, plan.row_len() - 1].into_iter().flat_map(|place| [largest + 1, 65520].map(|larger| (place, larger))) {
            let mut figures = random.figures(plan, largest);
            figures[place] = larger;
            assert_eq!(end.first_message(&key, &figures, &mut message), Err(Refusal::FigureBeyond));
            assert_eq!((end.numbers(), &message), (fresh, &vec![7; plan.row_len()]));
        }
        end.first_message(&key, &vec![largest; plan.row_len()], &mut message).unwrap();
        let masked = key[..plan.row_len()].iter().map(|&mask| ((u32::from(largest) + u32::from(mask)) % Q) as u16);
        assert_eq!(message, masked.collect::<Vec<_>>());
    }
}

/// 18, 2, 3, 32: a larger figure tells only where nothing earlier does, whichever stands first.
#[test]
fn a_larger_figure_is_refused_last() {
    let plan = Plan { users: 4, threshold: 3, collusion: 1, blocks: 2 };
    let key = key_of(plan, 4, &Random(7).elements(plan.list_len()));
    let mut end = End::start(plan, 4, Use::Counts, ROUND).unwrap();
    let mut message = [7; 4];
    let mut refused = |key: &[u16], figures: &[u16]| end.first_message(key, figures, &mut message).unwrap_err().number();
    let with = |at: usize, element: u16| [&key[..at], &[element], &key[at + 1..]].concat();
    assert_eq!(refused(&key, &[16381, 0, 0, 16380]), 32);
    assert_eq!(refused(&key, &[16381, 0, 0, 65521]), 3);
    assert_eq!(refused(&key, &[65535, 0, 0, 16381]), 3);
    assert_eq!(refused(&with(0, 65521), &[0, 0, 0, 16381]), 3);
    assert_eq!(refused(&with(key.len() - 1, 65521), &[16381, 0, 0, 0]), 3);
    assert_eq!(refused(&key[1..], &[16381, 0, 0, 0]), 2);
    assert_eq!(refused(&key, &[0, 0, 0, 0, 16381]), 2);
    assert_eq!((end.numbers(), message), ([4, 3, 1, 2, 4, 0, 0, ROUND], [7; 4]));
    // document 02's example at the last place: figure 10 with the mask 65511 sends 0
    end.first_message(&with(3, 65511), &[0, 0, 0, 10], &mut message).unwrap();
    assert_eq!(message, [key[0], key[1], key[2], 0]);
    assert_eq!(end.first_message(&key, &[16381; 4], &mut message), Err(Refusal::OutOfTurn));
}

/// Both ends of the bound and what lies behind them, wherever it stands; the end sends afterwards.
#[test]
fn a_signed_figure_lies_within_the_bound() {
    let mut random = Random(10);
    for plan in plans() {
        let (user, furthest, zeros) = (1 + random.below(plan.users), furthest_signed(plan) as u16, vec![0; plan.row_len()]);
        let (key, smallest) = (key_of(plan, user, &random.elements(plan.list_len())), (65521 - u32::from(furthest)) as u16);
        let with = |place: usize, element: u16| [&zeros[..place], &[element], &zeros[place + 1..]].concat();
        for place in [0, plan.row_len() - 1] {
            let mut end = End::start(plan, user, Use::Signed, ROUND).unwrap();
            let (fresh, mut message) = (end.numbers(), vec![7; plan.row_len()]);
            for (element, refusal) in [
                (furthest + 1, Refusal::FigureBeyond),
                (smallest - 1, Refusal::FigureBeyond),
                (32760, Refusal::FigureBeyond),
                (32761, Refusal::FigureBeyond),
                (65521, Refusal::BadElement),
                (65535, Refusal::BadElement),
            ] {
                assert_eq!(end.first_message(&key, &with(place, element), &mut message), Err(refusal));
                assert_eq!((end.numbers(), &message), (fresh, &vec![7; plan.row_len()]));
            }
            for element in [0, 1, furthest, smallest, 65507, 65520] {
                let mut end = End::resume(fresh);
                end.first_message(&key, &with(place, element), &mut message).unwrap();
                let mask = u32::from(key[place]);
                assert_eq!(u32::from(message[place]), (u32::from(element) + mask) % Q);
            }
        }
    }
}

/// 18, 2, 3, 32 of a signed end too; the bounds of document 02 for three airfields and for eight.
#[test]
fn a_signed_figure_beyond_is_refused_last() {
    for (users, furthest, smallest) in [(3, 10920, 54601), (8, 4095, 61426)] {
        let plan = Plan { users, threshold: 2, collusion: 1, blocks: 3 };
        let key = key_of(plan, 3, &Random(11).elements(plan.list_len()));
        let mut end = End::start(plan, 3, Use::Signed, 0).unwrap();
        let mut message = [7; 3];
        let mut refused = |key: &[u16], figures: &[u16]| end.first_message(key, figures, &mut message).unwrap_err().number();
        assert_eq!(refused(&key, &[furthest + 1, 0, smallest]), 32);
        assert_eq!(refused(&key, &[furthest, 0, smallest - 1]), 32);
        assert_eq!(refused(&key, &[furthest + 1, 65521, 0]), 3);
        assert_eq!(refused(&key, &[65535, 0, smallest - 1]), 3);
        assert_eq!(refused(&[&key[..key.len() - 1], &[65521]].concat(), &[smallest - 1, 0, 0]), 3);
        assert_eq!(refused(&key[1..], &[furthest + 1, 65521, 0]), 2);
        assert_eq!(refused(&key, &[smallest - 1, 0]), 2);
        assert_eq!((end.numbers(), message), ([users, 2, 1, 3, 3, 0, 1, 0], [7; 3]));
        end.first_message(&key, &[furthest, 65507, smallest], &mut message).unwrap();
        assert_eq!(end.first_message(&key, &[furthest + 1; 3], &mut message), Err(Refusal::OutOfTurn));
        assert_eq!(end.numbers(), [users, 2, 1, 3, 3, 1, 1, 0]);
    }
}

/// The seventh number is 0 for counts and anything else for signed figures, and stays as it is, whatever round the eighth has.
#[test]
fn an_end_keeps_its_use() {
    let (plan, mut message) = (Plan { users: 3, threshold: 2, collusion: 1, blocks: 1 }, [7]);
    let key = key_of(plan, 1, &[100, 200, 300, 12, 60, 40, 120]);
    let numbers = |usage| End::start(plan, 1, usage, 7).unwrap().numbers();
    assert_eq!([numbers(Use::Counts), numbers(Use::Signed)], [[3, 2, 1, 1, 1, 0, 0, 7], [3, 2, 1, 1, 1, 0, 1, 7]]);
    for eighth in [0, 1, ROUND] {
        let mut counts = End::resume([3, 2, 1, 1, 1, 0, 0, eighth]);
        assert_eq!(counts.first_message(&key, &[65520], &mut message), Err(Refusal::FigureBeyond));
        assert_eq!(counts.first_message(&key, &[10921], &mut message), Ok(()));
        assert_eq!((message, counts.numbers()), ([11021], [3, 2, 1, 1, 1, 1, 0, eighth]));
        for seventh in [1, 2, 1 << 16, 1 << 31, u32::MAX] {
            let mut signed = End::resume([3, 2, 1, 1, 1, 0, seventh, eighth]);
            assert_eq!(signed.first_message(&key, &[10921], &mut message), Err(Refusal::FigureBeyond));
            assert_eq!(signed.first_message(&key, &[65520], &mut message), Ok(()));
            assert_eq!(message, [99]);
            assert_eq!(signed.reply(&key, 5, eighth), Ok(&[220][..]));
            assert_eq!(signed.numbers(), [3, 2, 1, 1, 1, 2 + 5, seventh, eighth]);
        }
    }
}

/// Every round there is can be an end's, and each bit of it counts: a notice for another one is refused before the own one and after it,
/// for the set that was answered too, and changes nothing. A first message asks for none.
#[test]
fn an_end_answers_for_its_round_alone() {
    let mut random = Random(20);
    for plan in plans() {
        let (user, zeros) = (1 + random.below(plan.users), vec![0; plan.row_len()]);
        let (key, mut message) = (key_of(plan, user, &random.elements(plan.list_len())), vec![7; plan.row_len()]);
        let (everyone, usage) = ((1 << plan.users) - 1, [Use::Counts, Use::Signed][random.below(2) as usize]);
        // of all sets, everyone has the largest number, so its shares end the key
        let shares = &key[key.len() - plan.blocks as usize..];
        for round in [0, 1, 7, 65535, 65536, 1 << 31, ROUND, u32::MAX] {
            let mut end = End::start(plan, user, usage, round).unwrap();
            assert_eq!(end.numbers()[7], round);
            end.first_message(&key, &zeros, &mut message).unwrap();
            for _ in 0..2 {
                let before = end.numbers();
                for other in (0..32).map(|bit| round ^ 1 << bit).chain([!round, round.wrapping_add(1), round.wrapping_sub(1)]) {
                    assert_eq!(end.reply(&key, everyone, other), Err(Refusal::OtherRound));
                    assert_eq!(end.numbers(), before);
                }
                assert_eq!(end.reply(&key, everyone, round), Ok(shares));
                let Plan { users, threshold, collusion, blocks } = plan;
                assert_eq!(end.numbers(), [users, threshold, collusion, blocks, user, 2 + everyone, usage as u32, round]);
            }
        }
    }
}

/// 18, 2, 3, 5, 6, 33, 19, and from a lent array 1 and 4 before them: another round tells only where nothing earlier does.
#[test]
fn another_round_is_refused_in_its_place() {
    let key = key_of(Plan { users: 3, threshold: 2, collusion: 1, blocks: 1 }, 1, &[100, 200, 300, 12, 60, 40, 120]);
    let refused = |numbers: [u32; 8], key: &[u16], set, round| {
        let mut end = End::resume(numbers);
        let number = end.reply(key, set, round).unwrap_err().number();
        assert_eq!(end.numbers(), numbers);
        number
    };
    let end = |stage| [3, 2, 1, 1, 1, stage, 0, 7];
    assert_eq!(refused([3, 3, 1, 1, 1, 0, 0, 7], &[], 1, 8), 1);
    assert_eq!(refused([3, 2, 1, 1, 4, 0, 0, 7], &[], 1, 8), 4);
    assert_eq!(refused(end(0), &[], 1, 8), 18);
    assert_eq!(refused(end(0), &key, 5, 8), 18);
    for stage in [1, 2 + 5, u32::MAX] {
        assert_eq!(refused(end(stage), &key[1..], 1, 8), 2);
        assert_eq!(refused(end(stage), &[100, 154, 220, 65521], 1, 8), 3);
        assert_eq!(refused(end(stage), &key, 1, 8), 5);
        assert_eq!(refused(end(stage), &key, 9, 8), 5);
        assert_eq!(refused(end(stage), &key, 6, 8), 6);
        // 7 is not the set that was answered, 5 is
        assert_eq!([5, 7].map(|set| refused(end(stage), &key, set, 8)), [33, 33]);
    }
    assert_eq!(refused(end(2 + 5), &key, 7, 7), 19);
    assert_eq!(refused(end(u32::MAX), &key, 5, 7), 19);
}

/// All sets of airfields as their members, each at its number: those with a further airfield follow those without it.
fn member_lists(users: u32) -> Vec<Vec<u32>> {
    (1..=users).fold(vec![vec![]], |sets: Vec<Vec<u32>>, user| {
        let with_it: Vec<_> = sets.iter().map(|members| [&members[..], &[user]].concat()).collect();
        [sets, with_it].concat()
    })
}

/// Document 01's key: behind the masks, for each usable set holding the airfield, in rising number, M shares, and nothing else. A reply
/// tells the same of every set number.
#[test]
fn shares_start_where_the_key_has_them() {
    for plan in plans() {
        let (blocks, all) = (plan.blocks as usize, member_lists(plan.users));
        // each element tells its place
        let key: Vec<u16> = (0..plan.key_len() as u16).collect();
        let usable = |set: &u32| all.get(*set as usize).map_or(false, |members| members.len() >= plan.threshold as usize);
        for user in 1..=plan.users {
            let holding: Vec<u32> = (0..1 << plan.users).filter(usable).filter(|&set| all[set as usize].contains(&user)).collect();
            let masks = blocks * (plan.threshold - plan.collusion) as usize;
            assert_eq!(masks + blocks * holding.len(), key.len());
            for set in (0..(1 << plan.users) + 9).chain([256, 1 << 16, 1 << 31, u32::MAX].map(|above| above | holding[0])) {
                let unheld = if usable(&set) { Refusal::NotInSet } else { Refusal::SetUnusable };
                let start = holding.binary_search(&set).map(|smaller| masks + blocks * smaller).map_err(|_| unheld);
                assert_eq!(plan.reply_start(user, set), start);
                let mut sent = End::resume([plan.users, plan.threshold, plan.collusion, plan.blocks, user, 1, 0, ROUND]);
                assert_eq!(sent.reply(&key, set, ROUND), start.map(|start| &key[start..][..blocks]));
            }
        }
    }
}

/// Document 01's example and its largest keys; then 1, 4, 5, 6, whatever else applies.
#[test]
fn starts_are_told_or_refused() {
    let of = |[users, threshold, collusion, blocks]: [u32; 4], user, sets: [u32; 4]| {
        sets.map(|set| Plan { users, threshold, collusion, blocks }.reply_start(user, set))
    };
    let (small, large) = ([3, 2, 1, 1], [8, 2, 1, 16]);
    assert_eq!(of(small, 1, [3, 5, 7, 6]), [Ok(1), Ok(2), Ok(3), Err(Refusal::NotInSet)]);
    assert_eq!(of(small, 2, [3, 6, 7, 5]), [Ok(1), Ok(2), Ok(3), Err(Refusal::NotInSet)]);
    assert_eq!(of(small, 3, [5, 6, 7, 3]), [Ok(1), Ok(2), Ok(3), Err(Refusal::NotInSet)]);
    assert_eq!(of(large, 1, [3, 255, 1, 254]), [Ok(16), Ok(2032), Err(Refusal::SetUnusable), Err(Refusal::NotInSet)]);
    for user in [1, 2, 3] {
        // too few, with the airfield or without it; a member above K; all bits
        assert_eq!(of(small, user, [1, 2, 4, 0]), [Err(Refusal::SetUnusable); 4]);
        assert_eq!(of(small, user, [9, 10, 15, u32::MAX]), [Err(Refusal::SetUnusable); 4]);
    }
    for user in [0, 4, 33, 257, 65537, u32::MAX] {
        assert_eq!(of(small, user, [7, 1, 9, u32::MAX]), [Err(Refusal::BadUser); 4]);
    }
    for bad in [[2, 2, 1, 1], [9, 2, 1, 1], [3, 3, 1, 1], [3, 2, 2, 1], [3, 2, 0, 1], [3, 2, 1, 0], [3, 2, 1, 17], [259, 258, 257, 257]] {
        for user in [0, 1, 3, 4, u32::MAX] {
            assert_eq!(of(bad, user, [7, 6, 1, u32::MAX]), [Err(Refusal::BadPlan); 4]);
        }
    }
}

/// Bytes among which some numbers are skipped: one too few, just enough, and one to spare.
#[test]
fn lists_of_every_plan_are_drawn() {
    let mut random = Random(4);
    for plan in plans() {
        let mut bytes = Vec::new();
        let mut wanted = Vec::new();
        while wanted.len() < plan.list_len() {
            let number = if random.below(10) == 0 { 65517 + random.below(19) } else { random.below(65536) } as u16;
            bytes.extend(number.to_le_bytes());
            wanted.extend(Some(number).filter(|&number| u32::from(number) < Q));
        }
        let mut list = vec![7; plan.list_len()];
        assert_eq!(plan.list_from_bytes(&bytes[..bytes.len() - 1], &mut list), Err(Refusal::BytesRunOut));
        assert!(list.iter().all(|&element| element == 7));
        plan.list_from_bytes(&bytes, &mut list).unwrap();
        assert_eq!(list, wanted);
        bytes.push(255);
        list.fill(7);
        plan.list_from_bytes(&bytes, &mut list).unwrap();
        assert_eq!(list, wanted);
    }
}

#[test]
fn the_longest_lengths_are_reached_and_not_passed() {
    let longest = |length: fn(Plan) -> usize| plans().map(length).max().unwrap();
    assert_eq!([longest(Plan::row_len), longest(Plan::list_len), longest(Plan::key_len)], [MOST_PLACES, LONGEST_LIST, LONGEST_KEY]);
}

/// Sends an element where none is held; then repeats of it are taken, others are refused, and neither changes anything.
fn send_repeatedly(service: &mut Service, element: u32, send: impl Fn(&mut Service, u32) -> Result<(), Refusal>) {
    assert_eq!(send(service, element), Ok(()));
    let held = service.clone();
    for other in [0, 1, 65519, 65520, (element + 1) % Q, (element + Q - 1) % Q] {
        assert_eq!(send(service, other), if other == element { Ok(()) } else { Err(Refusal::Held) });
        assert_eq!(send(service, element), Ok(()));
        assert_eq!(*service, held);
    }
    for no_element in [65521, 65535, element + 65521, element + 65536] {
        assert_eq!(send(service, no_element), Err(Refusal::BadElement));
    }
    assert_eq!(*service, held);
}

/// First elements and replies may come again in their phase, also 0 and 65520; behind it they are refused, and behind an open they are new.
#[test]
fn elements_may_come_again() {
    let mut random = Random(16);
    let mut element = move || [0, 65520, random.below(Q)][random.below(3) as usize];
    for plan in plans() {
        let mut service = Service::new();
        service.plan(plan).unwrap();
        for round in 1..=2 {
            service.open(round).unwrap();
            for (user, place) in (1..=plan.users).flat_map(|user| (0..plan.row_len() as u32).map(move |place| (user, place))) {
                assert_eq!(service.reply_element(user, 0, 0), Err(Refusal::OtherPhase));
                send_repeatedly(&mut service, element(), |service, element| service.first_element(user, place, element));
            }
            assert_eq!(service.close(), Ok((1 << plan.users) - 1));
            for (user, block) in (1..=plan.threshold).flat_map(|user| (0..plan.blocks).map(move |block| (user, block))) {
                assert_eq!(service.first_element(user, 0, 0), Err(Refusal::OtherPhase));
                send_repeatedly(&mut service, element(), |service, element| service.reply_element(user, block, element));
            }
            // the replies of just U airfields are always explained
            assert_eq!(service.finish(&mut [0; MOST_PLACES]).unwrap().aside, None);
            assert_eq!([service.first_element(1, 0, 0), service.reply_element(1, 0, 0)], [Err(Refusal::OtherPhase); 2]);
        }
    }
}

/// A closed round of counts of a plan in which all survive, the replies, and the total.
fn any_closed(random: &mut Random, plan: Plan) -> (Service, Vec<(u32, Vec<u16>)>, Vec<u16>) {
    let (list, largest) = (random.elements(plan.list_len()), largest_figure(plan));
    let rows: Vec<Vec<u16>> = (0..plan.users).map(|_| random.figures(plan, largest)).collect();
    let total = (0..plan.row_len()).map(|place| rows.iter().map(|row| row[place]).sum()).collect();
    let (service, replies) = closed(plan, &list, (1 << plan.users) - 1, &rows, |_| Use::Counts);
    (service, replies, total)
}

/// Another element in a block of a reply.
fn falsify(random: &mut Random, reply: &mut (u32, Vec<u16>), block: usize) {
    let share = &mut reply.1[block];
    *share = ((u32::from(*share) + 1 + random.below(Q - 1)) % Q) as u16;
}

/// Refused by 16, with nothing changed.
fn refused_unexplained(service: &mut Service) {
    let (held, mut totals) = (service.clone(), [7; MOST_PLACES]);
    assert_eq!(service.finish(&mut totals), Err(Refusal::Unexplained));
    assert_eq!((&*service, totals), (&held, [7; MOST_PLACES]));
}

/// A reply that is false in one block or in all, whosever it is: among U + 2 or more it is set aside, and its sender's figures stay in the
/// total. Among U + 1 it is refused, until a further reply is complete; among U it is not seen.
#[test]
fn one_false_reply_is_set_aside() {
    let mut random = Random(17);
    for plan in plans() {
        let threshold = plan.threshold as usize;
        for at in 0..plan.users as usize {
            let (mut service, mut replies, total) = any_closed(&mut random, plan);
            let mut false_reply = replies.remove(at);
            let one = random.below(plan.blocks) as usize;
            let blocks = if random.below(2) == 0 { one..one + 1 } else { 0..plan.blocks as usize };
            blocks.for_each(|block| falsify(&mut random, &mut false_reply, block));
            send_replies(&mut service, &[false_reply.clone()]);
            send_replies(&mut service, &replies[..threshold - 1]);
            assert_eq!(service.clone().finish(&mut [0; MOST_PLACES]).unwrap().aside, None);
            for (complete, reply) in (threshold + 1..).zip(&replies[threshold - 1..]) {
                send_replies(&mut service, &[reply.clone()]);
                if complete == threshold + 1 {
                    refused_unexplained(&mut service);
                } else {
                    let mut totals = [7; MOST_PLACES];
                    let finished = service.clone().finish(&mut totals);
                    assert_eq!(finished, Ok(Finished { totals: &total, aside: Some(false_reply.0) }));
                }
            }
        }
    }
}

/// False replies of two airfields are refused, in one block or in two, though in each of two blocks one airfield alone would fit.
#[test]
fn two_false_replies_are_refused() {
    let mut random = Random(18);
    for plan in plans().filter(|plan| plan.threshold + 2 <= plan.users) {
        let (mut service, mut replies, _) = any_closed(&mut random, plan);
        let first = random.below(plan.users) as usize;
        let second = (first + 1 + random.below(plan.users - 1) as usize) % plan.users as usize;
        for (reply, blocks) in [(first, plan.blocks), (second, 1)] {
            let block = random.below(blocks) as usize;
            falsify(&mut random, &mut replies[reply], block);
        }
        send_replies(&mut service, &replies);
        refused_unexplained(&mut service);
    }
}

/// A reply with a block missing counts for nothing, false or not, and is no reason for an aside.
#[test]
fn partial_replies_are_ignored() {
    let mut random = Random(19);
    for plan in plans().filter(|plan| 1 < plan.blocks) {
        let (mut service, mut replies, total) = any_closed(&mut random, plan);
        let partial = random.below(plan.users) as usize;
        falsify(&mut random, &mut replies[partial], 0);
        replies[partial].1.pop();
        send_replies(&mut service, &replies);
        assert_eq!(service.finish(&mut [7; MOST_PLACES]), Ok(Finished { totals: &total, aside: None }));
    }
}

/// Any numbers get an answer, and a refusal changes neither state nor buffer.
#[test]
fn any_numbers_are_answered() {
    let mut random = Random(2);
    for _ in 0..20000 {
        let plan = random.any_plan();
        assert_eq!(plan.list_len() == 0, plan.key_len() == 0 || plan.row_len() == 0);
        assert!([Use::Counts, Use::Signed].iter().all(|&usage| (plan.figure_bound(usage) == 0) == (plan.list_len() == 0)));
        assert!(plan.residue(random.any() as i32).map_or(true, |element| u32::from(element) < Q));
        assert_eq!(plan.reply_start(random.any(), random.any()) == Err(Refusal::BadPlan), plan.list_len() == 0);
        let count = random.below(9) as usize;
        let (list, mut written) = (random.elements(count), vec![7; random.below(9) as usize]);
        let before = written.clone();
        if plan.make_key(random.any(), &list, &mut written).is_err() {
            assert_eq!(written, before);
        }
        let bytes: Vec<u8> = list.iter().flat_map(|element| element.to_le_bytes()).collect();
        let before = written.clone();
        if plan.list_from_bytes(&bytes, &mut written).is_err() {
            assert_eq!(written, before);
        }
        let numbers = [0; 8].map(|_| random.any());
        let mut end = End::resume(numbers);
        if end.reply(&list, random.any(), random.any()).is_err() {
            assert_eq!(end.numbers(), numbers);
        }
        let (numbers, before) = (end.numbers(), written.clone());
        if end.first_message(&list, &before, &mut written).is_err() {
            assert_eq!((end.numbers(), &written), (numbers, &before));
        }
    }
}

#[test]
fn any_calls_on_a_service_are_answered() {
    let mut random = Random(3);
    let plan = Plan { users: 3, threshold: 2, collusion: 1, blocks: 1 };
    let mut service = Service::new();
    for turn in 0..20000 {
        let before = service.clone();
        let mut totals = [7; MOST_PLACES];
        let refused = match random.below(8) {
            0 => service.plan(random.any_plan()).is_err(),
            1 => service.plan(plan).is_err(),
            2 => service.open(random.any()).is_err(),
            3 => service.open(turn).is_err(),
            4 => service.first_element(random.any(), random.any(), random.any()).is_err(),
            5 => service.reply_element(random.any(), random.any(), random.any()).is_err(),
            6 => service.close().is_err(),
            _ => service.finish(&mut totals).is_err() && totals == [7; MOST_PLACES],
        };
        assert!(!refused || service == before);
    }
}

#[test]
fn refusals_have_numbers_and_words() {
    assert_eq!(Refusal::NotInSet.to_string(), "refused 6: the airfield is not in the set");
    assert_eq!(
        Refusal::Unexplained.to_string(),
        "refused 16: complete replies disagree, and there are U + 1 of them or no single airfield can be set aside"
    );
    assert_eq!(Refusal::Held.to_string(), "refused 13: another element is held at that place or block");
    assert_eq!(
        Refusal::FigureBeyond.to_string(),
        "refused 32: a count is above 65520 / K, or a signed figure further from zero than 32760 / K, rounded down"
    );
    assert_eq!(Refusal::OtherRound.to_string(), "refused 33: the set is announced for another round than the end's");
    assert_eq!((Refusal::BadPlan.number(), Refusal::OtherSet.number()), (1, 19));
    let start = |users, user, usage| End::start(Plan { users, threshold: 2, collusion: 1, blocks: 1 }, user, usage, ROUND);
    for usage in [Use::Counts, Use::Signed] {
        assert_eq!(
            [start(3, 4, usage), start(3, 0, usage), start(9, 0, usage)],
            [Err(Refusal::BadUser), Err(Refusal::BadUser), Err(Refusal::BadPlan)]
        );
    }
}
