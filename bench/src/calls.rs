//! The calls that are measured, of any side. Each is done once first, and its result compared.
use crate::fast::{Plan, Use, MOST_PLACES};
use crate::rounds::{named, Random, Round};
use crate::sides::Side;
use crate::timing::Work;
use std::hint::black_box;

/// The random list from bytes that look random, with some left over.
pub fn list<S: Side>(p: Plan) -> Work {
    let mut random = Random(2);
    let bytes: Vec<u8> = (0..2 * p.list_len() + 100).map(|_| random.below(256) as u8).collect();
    let numbers = bytes.chunks_exact(2).map(|pair| u16::from_le_bytes([pair[0], pair[1]]));
    let wanted: Vec<u16> = numbers.filter(|&x| x <= 65520).take(p.list_len()).collect();
    let mut list = vec![0; p.list_len()];
    let call = S::list_from_bytes();
    assert_eq!(call(p, &bytes, &mut list), 0);
    assert!(list == wanted, "list under {}", named(p));
    Work::new(move || assert_eq!(call(p, &bytes, &mut list), 0))
}

/// A key of every user.
pub fn keys<S: Side>(p: Plan) -> Work {
    let round = Round::new(p, &mut Random(3));
    let mut key = vec![0; p.key_len()];
    let call = S::make_key();
    for (user, wanted) in (1..).zip(&round.keys) {
        assert_eq!(call(p, user, &round.list, &mut key), 0);
        assert!(key == *wanted, "key of {user} under {}", named(p));
    }
    Work::new(move || (1..=p.users).for_each(|user| assert_eq!(call(p, user, &round.list, &mut key), 0)))
}

/// The first message of user 3.
pub fn first_message<S: Side>(p: Plan, usage: Use) -> Work {
    let mut round = Round::of_use(p, usage, &mut Random(4));
    let (key, figures) = (round.keys.swap_remove(2), round.figures.swap_remove(2));
    let mut message = vec![0; p.places()];
    let fresh = S::end(p, 3, usage);
    let call = S::first_message();
    assert_eq!(call(&mut S::like(&fresh), &key, &figures, &mut message), 0);
    assert!(message == round.messages[2], "first message under {}", named(p));
    Work::new(move || assert_eq!(call(&mut S::like(&fresh), &key, &figures, &mut message), 0))
}

/// The reply of user 3 to the set of all users.
pub fn reply<S: Side>(p: Plan) -> Work {
    let mut round = Round::new(p, &mut Random(5));
    let (key, everyone) = (round.keys.swap_remove(2), round.everyone);
    let mut end = S::end(p, 3, Use::Counts);
    assert_eq!(S::first_message()(&mut end, &key, &round.figures[2], &mut vec![0; p.places()]), 0);
    let call = S::reply();
    assert!(call(&mut end, &key, everyone).unwrap() == round.replies[2], "reply under {}", named(p));
    Work::new(move || assert_eq!(call(&mut end, &key, everyone).unwrap().len(), p.blocks as usize))
}

/// Where in user 1's key the shares for a set start.
pub fn lookup<S: Side>(p: Plan, set: u32) -> Work {
    let call = S::find_reply();
    let before = (0..set).filter(|v| v & 1 == 1 && p.threshold <= v.count_ones()).count();
    assert_eq!(call(p, 1, set), Some(p.places() + before * p.blocks as usize), "set {set} under {}", named(p));
    Work::new(move || assert!(black_box(call(p, 1, set)).is_some()))
}

/// All first elements of a round.
pub fn elements<S: Side>(p: Plan) -> Work {
    let firsts = Round::new(p, &mut Random(6)).firsts();
    let call = S::first_element();
    let all = move |service: &mut S::Service| {
        for &(user, place, x) in &firsts {
            assert_eq!(call(service, user, place, x), 0);
        }
    };
    Work::over(S::opened(p), all)
}

/// A service with the replies of user 1 to `users` held, that of `false_user` false in every block; 0 is nobody.
fn replied<S: Side>(round: &Round, users: u32, false_user: u32) -> S::Service {
    let mut service = S::opened(round.plan);
    let call = S::first_element();
    for (user, place, x) in round.firsts() {
        assert_eq!(call(&mut service, user, place, x), 0);
    }
    assert_eq!(S::close(&mut service), round.everyone);
    for (user, row) in (1..=users).zip(round.falsified(false_user)) {
        for (block, x) in (0..).zip(row) {
            assert_eq!(S::reply_element(&mut service, user, block, x as u32), 0);
        }
    }
    service
}

/// A finish with the replies of user 1 to `users`, of which that of `aside` is false and set aside; 0 is nobody.
pub fn finish<S: Side>(round: &Round, users: u32, aside: u32) -> Work {
    let service = replied::<S>(round, users, aside);
    let mut totals = [0; MOST_PLACES];
    let call = S::finish();
    assert_eq!(call(&mut service.clone(), &mut totals), Some(aside));
    for (place, &total) in totals[..round.plan.places()].iter().enumerate() {
        let sum: u32 = round.figures.iter().map(|row| row[place] as u32).sum();
        assert_eq!(total as u32, sum);
    }
    Work::over(service, move |s| assert!(call(s, black_box(&mut [0; MOST_PLACES])).is_some()))
}

/// Solving a round with the replies of user 1 to `users` by FLINT: block by block, and all blocks as columns of one system.
#[cfg(feature = "flint")]
pub fn flint(round: &Round, users: u32) -> Option<[Work; 2]> {
    #[repr(C)]
    struct Systems {
        _private: [u8; 0],
    }
    #[link(name = "solver", kind = "static")]
    #[link(name = "flint")]
    extern "C" {
        fn flint_new(size: u32, users: u32, blocks: u32, replies: *const u16) -> *mut Systems;
        fn flint_blocks(systems: *mut Systems);
        fn flint_columns(systems: *mut Systems);
        fn flint_unknown(systems: *const Systems, block: u32, i: u32) -> u32;
    }
    let p = round.plan;
    // SAFETY: the replies are those of all users, one for each block, and the systems live until the end.
    let systems = unsafe { flint_new(p.threshold, users, p.blocks, round.replies.concat().as_ptr()) };
    let (blocks, columns) = (move || unsafe { flint_blocks(systems) }, move || unsafe { flint_columns(systems) });
    blocks();
    columns();
    let items = p.threshold - p.collusion;
    for place in 0..p.places() {
        let masks: u32 = round.keys.iter().map(|key| key[place] as u32).sum();
        let unknown = unsafe { flint_unknown(systems, place as u32 / items, place as u32 % items) };
        assert_eq!(unknown, masks % crate::fast::Q);
    }
    Some([Work::new(blocks), Work::new(columns)])
}

#[cfg(not(feature = "flint"))]
pub fn flint(_: &Round, _: u32) -> Option<[Work; 2]> {
    None
}
