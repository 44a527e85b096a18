//! The contenders of a call: ours through the static library, plain Rust with the same algorithms, and the Rust of before, which is
//! frozen. Function pointers hide Rust's calls from the compiler, so that each is called as ours are.
use crate::cutawheno::{self, Refusal};
use crate::fast::{self, Plan, Use, MOST_PLACES};
use crate::frozen;
use crate::rounds::ROUND;
use std::hint::black_box;

/// A call answers 0 or the number of its refusal; where it hands back more, a refusal is none of it.
pub trait Side {
    type End: 'static;
    type Service: Clone + 'static;

    fn list_from_bytes() -> impl Fn(Plan, &[u8], &mut [u16]) -> u32 + 'static;
    fn make_key() -> impl Fn(Plan, u32, &[u16], &mut [u16]) -> u32 + 'static;
    fn find_reply() -> impl Fn(Plan, u32, u32) -> Option<usize> + 'static;

    /// A fresh end for ROUND, and one like another.
    fn end(p: Plan, user: u32, usage: Use) -> Self::End;
    fn like(end: &Self::End) -> Self::End;
    fn first_message() -> impl Fn(&mut Self::End, &[u16], &[u16], &mut [u16]) -> u32 + 'static;
    /// To a set announced for ROUND.
    fn reply() -> impl for<'a> Fn(&mut Self::End, &'a [u16], u32) -> Option<&'a [u16]> + 'static;

    /// A service with ROUND open.
    fn opened(p: Plan) -> Self::Service;
    fn first_element() -> impl Fn(&mut Self::Service, u32, u32, u32) -> u32 + 'static;
    /// The survivors.
    fn close(service: &mut Self::Service) -> u32;
    fn reply_element(service: &mut Self::Service, user: u32, block: u32, element: u32) -> u32;
    /// The user set aside, 0 for nobody.
    fn finish() -> impl Fn(&mut Self::Service, &mut [u16; MOST_PLACES]) -> Option<u32> + 'static;
}

pub struct Ours;

fn number<T>(answer: Result<T, Refusal>) -> u32 {
    answer.map_or_else(Refusal::number, |_| 0)
}

fn our_plan(p: Plan) -> cutawheno::Plan {
    cutawheno::Plan { users: p.users, threshold: p.threshold, collusion: p.collusion, blocks: p.blocks }
}

impl Side for Ours {
    type End = cutawheno::End;
    type Service = cutawheno::Service;

    fn list_from_bytes() -> impl Fn(Plan, &[u8], &mut [u16]) -> u32 {
        |p, bytes, list| number(our_plan(p).list_from_bytes(bytes, list))
    }

    fn make_key() -> impl Fn(Plan, u32, &[u16], &mut [u16]) -> u32 {
        |p, user, list, key| number(our_plan(p).make_key(user, list, key))
    }

    fn find_reply() -> impl Fn(Plan, u32, u32) -> Option<usize> {
        |p, user, set| our_plan(p).reply_start(user, set).ok()
    }

    fn end(p: Plan, user: u32, usage: Use) -> cutawheno::End {
        let usage = match usage {
            Use::Counts => cutawheno::Use::Counts,
            Use::Signed => cutawheno::Use::Signed,
        };
        cutawheno::End::start(our_plan(p), user, usage, ROUND).unwrap()
    }

    fn like(end: &cutawheno::End) -> cutawheno::End {
        cutawheno::End::resume(end.numbers())
    }

    fn first_message() -> impl Fn(&mut cutawheno::End, &[u16], &[u16], &mut [u16]) -> u32 {
        |end, key, figures, out| number(end.first_message(key, figures, out))
    }

    fn reply() -> impl for<'a> Fn(&mut cutawheno::End, &'a [u16], u32) -> Option<&'a [u16]> {
        |end, key, set| end.reply(key, set, ROUND).ok()
    }

    fn opened(p: Plan) -> cutawheno::Service {
        let mut service = cutawheno::Service::new();
        service.plan(our_plan(p)).unwrap();
        service.open(ROUND).unwrap();
        service
    }

    fn first_element() -> impl Fn(&mut cutawheno::Service, u32, u32, u32) -> u32 {
        |service, user, place, element| number(service.first_element(user, place, element))
    }

    fn close(service: &mut cutawheno::Service) -> u32 {
        service.close().unwrap()
    }

    fn reply_element(service: &mut cutawheno::Service, user: u32, block: u32, element: u32) -> u32 {
        number(service.reply_element(user, block, element))
    }

    fn finish() -> impl Fn(&mut cutawheno::Service, &mut [u16; MOST_PLACES]) -> Option<u32> {
        |service, totals| service.finish(totals).ok().map(|finished| finished.aside.unwrap_or(0))
    }
}

macro_rules! rust_side {
    ($side:ident, $module:ident) => {
        pub struct $side;

        impl $side {
            fn plan(p: Plan) -> $module::Plan {
                $module::Plan { users: p.users, threshold: p.threshold, collusion: p.collusion, blocks: p.blocks }
            }
        }

        impl Side for $side {
            type End = $module::Client;
            type Service = $module::Service;

            fn list_from_bytes() -> impl Fn(Plan, &[u8], &mut [u16]) -> u32 {
                let call = black_box($module::list_from_bytes as fn($module::Plan, &[u8], &mut [u16]) -> u32);
                move |p, bytes, list| call($side::plan(p), bytes, list)
            }

            fn make_key() -> impl Fn(Plan, u32, &[u16], &mut [u16]) -> u32 {
                let call = black_box($module::make_key as fn($module::Plan, u32, &[u16], &mut [u16]) -> u32);
                move |p, user, list, key| call($side::plan(p), user, list, key)
            }

            fn find_reply() -> impl Fn(Plan, u32, u32) -> Option<usize> {
                let call = black_box($module::Plan::find_reply as fn($module::Plan, u32, u32) -> Result<usize, u32>);
                move |p, user, set| call($side::plan(p), user, set).ok()
            }

            fn end(p: Plan, user: u32, usage: Use) -> $module::Client {
                let usage = match usage {
                    Use::Counts => $module::Use::Counts,
                    Use::Signed => $module::Use::Signed,
                };
                $module::Client { plan: $side::plan(p), user, usage, round: ROUND, stage: $module::Stage::Fresh }
            }

            fn like(end: &$module::Client) -> $module::Client {
                *end
            }

            fn first_message() -> impl Fn(&mut $module::Client, &[u16], &[u16], &mut [u16]) -> u32 {
                type Call = fn(&mut $module::Client, &[u16], &[u16], &mut [u16]) -> u32;
                black_box($module::Client::first_message as Call)
            }

            fn reply() -> impl for<'a> Fn(&mut $module::Client, &'a [u16], u32) -> Option<&'a [u16]> {
                type Call = for<'a> fn(&mut $module::Client, &'a [u16], u32, u32) -> Result<&'a [u16], u32>;
                let call = black_box($module::Client::reply as Call);
                move |end: &mut _, key: &_, set| call(end, key, set, ROUND).ok()
            }

            fn opened(p: Plan) -> $module::Service {
                let mut service = $module::Service::new();
                assert_eq!((service.plan($side::plan(p)), service.open(ROUND)), (0, 0));
                service
            }

            fn first_element() -> impl Fn(&mut $module::Service, u32, u32, u32) -> u32 {
                black_box($module::Service::first_element as fn(&mut $module::Service, u32, u32, u32) -> u32)
            }

            fn close(service: &mut $module::Service) -> u32 {
                assert_eq!(service.close(), 0);
                service.survivors
            }

            fn reply_element(service: &mut $module::Service, user: u32, block: u32, element: u32) -> u32 {
                service.reply_element(user, block, element)
            }

            fn finish() -> impl Fn(&mut $module::Service, &mut [u16; MOST_PLACES]) -> Option<u32> {
                type Call = fn(&mut $module::Service, &mut [u16; MOST_PLACES]) -> Result<u32, u32>;
                let call = black_box($module::Service::finish as Call);
                move |service, totals| call(service, totals).ok()
            }
        }
    };
}

rust_side!(Fast, fast);
rust_side!(Frozen, frozen);
