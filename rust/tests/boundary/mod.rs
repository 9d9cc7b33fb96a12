//! A deterministic trial of every call at the C boundary: awkward lengths, every name, slots of every kind, forged ones too.
//!
//! Every answer is compared with the second implementation, and every buffer stands between canaries.
//! SHEARCOTTER_TRIALS sets the number of calls (1,000,000 where it is not set).

mod buffers;
mod networks;
#[cfg(target_os = "linux")]
mod pages;
mod plain;
mod pool;
mod stations;

use std::collections::BTreeMap;
use std::io::Write;
use std::{env, io, thread};

use shearcotter::raw::{A, B};

use crate::independent::random::Random;
use pool::Pool;

/// A call, the recipient that it named, and its number.
type Met = (&'static str, u8, u8);

/// For calls that name no recipient.
const NONE: u8 = 0;

/// How many calls of each kind, under which name, had which number.
type Tally = BTreeMap<Met, u64>;

const STREAMS: u64 = 2;

/// Every call, and the numbers that it has in document 01 or in its request.
const CALLS: [(&str, &[u8]); 19] = [
    ("add", &[0, 1, 4]),
    ("multiply", &[0, 1, 4]),
    ("invert", &[0, 1, 4, 32]),
    ("shape_at", &[0, 3]),
    ("register", &[0, 1, 2, 4]),
    ("lock", &[0, 1, 3, 8, 9, 12, 10]),
    ("to_network", &[0, 1, 2, 3, 4, 5, 6, 7, 10]),
    ("from_network", &[0, 1, 2, 36, 3, 4, 6, 7, 10]),
    ("load", &[0, 35, 22, 1, 2, 3, 4, 5, 6, 7]),
    ("load_network", &[0, 35, 22, 1, 2, 36, 3, 4, 6, 7]),
    ("publish", &[0, 35, 21, 25, 34, 10, 11, 23]),
    ("publish_small", &[0, 35, 21, 25, 34, 10, 11, 23]),
    ("open", &[0, 35, 21, 25, 34, 24, 8, 9, 10, 13]),
    ("report", &[0, 35, 21, 25, 34, 24, 31]),
    ("session", &[0, 35, 21, 25, 34, 24, 8, 9, 33]),
    ("read", &[0, 35, 21, 25, 8, 9, 10, 14]),
    ("read_marked", &[0, 35, 21, 25, 8, 9, 37, 10, 14]),
    ("drop", &[0, 35, 21]),
    ("shake256", &[0]),
];

fn unnamed((call, number): (&'static str, u8)) -> Met {
    (call, NONE, number)
}

fn one_call(random: &mut Random, pool: &Pool) -> Met {
    match random.below(100) {
        0..=9 => unnamed(plain::field(random)),
        10..=11 => unnamed(plain::shape_at(random)),
        12..=17 => unnamed(plain::register(random)),
        18..=29 => unnamed(plain::lock(random, pool)),
        30 => unnamed(plain::shake256(random)),
        31..=34 => unnamed(networks::convert(random, pool)),
        35..=39 => stations::load(random, pool),
        40..=43 => networks::load(random, pool),
        44..=51 => stations::publish(random, pool),
        52..=60 => stations::open(random, pool),
        61..=68 => stations::report(random, pool),
        69..=78 => stations::session(random, pool),
        79..=87 => stations::read(random, pool),
        88..=95 => stations::read_marked(random, pool),
        _ => stations::drop(random, pool),
    }
}

fn stream(seed: u64, trials: u64, pool: &Pool) -> Tally {
    let mut random = Random::new(seed);
    let mut tally = Tally::new();
    for _ in 0..trials {
        let outcome = one_call(&mut random, pool);
        *tally.entry(outcome).or_default() += 1;
    }
    tally
}

fn trials() -> u64 {
    let set = env::var("SHEARCOTTER_TRIALS").unwrap_or_else(|_| "1000000".to_owned());
    set.parse().expect("SHEARCOTTER_TRIALS is a number")
}

/// What a call under a name, or under none, answered how often.
fn counts(tally: &Tally, call: &str, name: u8) -> String {
    let of_call = tally.iter().filter(|((of, under, _), _)| (*of, *under) == (call, name));
    let counts = of_call.map(|((_, _, number), count)| match number {
        0 => format!("accepted {count}"),
        _ => format!("{number}: {count}"),
    });
    counts.collect::<Vec<String>>().join(", ")
}

/// Past the capture of test output, so that the count is always seen.
fn report(total: u64, tally: &Tally) {
    let mut lines = format!("boundary: {total} calls tried\n");
    for (call, _) in CALLS {
        for (name, under) in [(A, " A"), (B, " B"), (NONE, "")] {
            let counts = counts(tally, call, name);
            if !counts.is_empty() {
                lines += &format!("  {call}{under}: {counts}\n");
            }
        }
    }
    io::stderr().write_all(lines.as_bytes()).expect("standard error");
}

/// Every number of every call was met: under both names where it takes one, and 35 under none.
fn all_numbers_met(tally: &Tally) {
    for (call, numbers) in CALLS {
        let takes_name = numbers.contains(&35);
        for number in numbers {
            let names = if takes_name && *number != 35 { &[A, B][..] } else { &[NONE] };
            for name in names {
                assert!(tally.contains_key(&(call, *name, *number)), "{call} of {name} never answered {number}");
            }
        }
    }
}

#[test]
fn every_call_at_the_boundary() {
    let total = trials();
    let pool = Pool::new(&mut Random::new(1));
    let mut tally = Tally::new();
    thread::scope(|scope| {
        let share = |i: u64| total / STREAMS + u64::from(i < total % STREAMS);
        let start = |i: u64| {
            let pool = &pool;
            scope.spawn(move || stream(100 + i, share(i), pool))
        };
        let streams: Vec<_> = (0..STREAMS).map(start).collect();
        for stream in streams {
            for (outcome, count) in stream.join().expect("no difference") {
                *tally.entry(outcome).or_default() += count;
            }
        }
    });
    assert_eq!(tally.values().sum::<u64>(), total);
    report(total, &tally);
    if total >= 100_000 {
        all_numbers_met(&tally);
    }
}
