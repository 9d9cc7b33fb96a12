//! calls.txt: lists of calls for one recipient, with the ledger at the end, under each name; the same with the small form for each
//! publish, and with a report or a session behind each call.

use shearcotter::raw::{Slot, Station, A, B};

use super::expected;
use crate::independent::held::Held;
use crate::independent::key::Key;
use crate::independent::recipients::{Answer, Call, Named};
use crate::independent::{calls, random::Random};
use crate::support::named::make;
use crate::support::raw_calls::{empty, fresh, held, holding, report, session, slot, with};
use crate::support::{bytes, only_written, vectors::cases, UNTOUCHED};

/// The call that a line says before its arrow; outputs and workspaces are untouched.
fn call(case: &[String]) -> Call {
    let row = |i: usize| bytes(&case[i]);
    let buffer = |i: usize| vec![UNTOUCHED; case[i].parse().expect("a length")];
    match case[0].as_str() {
        "load" => Call::Load { file: row(1) },
        "load_network" => Call::LoadNetwork { file: row(1) },
        "publish" => Call::Publish { out: buffer(1), work: buffer(2) },
        "publish_small" => Call::PublishSmall { out: buffer(1), work: buffer(2) },
        "open" => Call::Open { capsule: row(1), out: buffer(2) },
        "read" => Call::Read { word: row(1), out: buffer(2) },
        "read_marked" => Call::ReadMarked { word: row(1), marks: row(2), out: buffer(3) },
        "report" => Call::Report { capsules: row(1), out: buffer(2) },
        "session" => Call::Session { capsule: row(1), secret: row(2) },
        "drop" => Call::Drop,
        other => panic!("no such call: {other}"),
    }
}

/// All that the call answers by what the line says behind its arrow; a report's counts are those of the line's records.
fn answer(call: &Call, case: &[String]) -> Answer {
    let fields = match expected(case) {
        Ok(fields) => fields,
        Err(number) => return Answer::refused(number, call),
    };
    let said = fields.first().map_or(vec![], |field| bytes(field));
    let ones = fields.get(1).map_or(0, |ones| ones.parse().expect("a number"));
    let mut answer = Answer { ones, ..Answer::refused(0, call) };
    match call {
        Call::Session { .. } => answer.key = said.try_into().expect("32 bytes"),
        _ => {
            answer.out[..said.len()].copy_from_slice(&said);
            if let Call::Report { .. } = call {
                answer.counts = calls::counts(&said);
            }
        }
    }
    answer
}

/// What the lines so far say of the key: the lists were made before request L5.
#[derive(Default)]
struct Ledger {
    key: Option<Held>,
    /// Lines refused with 34.
    turned: usize,
}

impl Ledger {
    fn split(&self) -> bool {
        self.key.as_ref().is_some_and(Held::has_factor)
    }

    /// The line as it is since request L5: a held key whose g has a proper factor neither publishes nor opens.
    fn line(&mut self, case: &[String]) -> Vec<String> {
        let arrow = 1 + case.iter().position(|field| field == "->").expect("an arrow");
        match (case[0].as_str(), case[arrow].as_str()) {
            ("load", "ok") => self.key = Key::parse(&bytes(&case[1])).map(Held::new),
            ("drop", "ok") => self.key = None,
            ("publish" | "open", _) if self.split() => {
                self.turned += 1;
                let refused = ["refused", "34"].map(str::to_owned);
                return case[..arrow].iter().cloned().chain(refused).collect();
            }
            _ => {}
        }
        case.to_vec()
    }

    /// The slot that a list's last line describes.
    fn end(&self, case: &[String]) -> Slot {
        if case[1] == "-" {
            return empty();
        }
        let state = if case[2] == "1" && !self.split() { 2 } else { 1 };
        holding(state, &Key::parse(&bytes(&case[1])).expect("a key"))
    }
}

/// Makes the call of a line: the answer is what the line says, every other byte of the buffers is untouched, and the station stays
/// unless a load, publish or drop is accepted.
pub fn run(station: Station, name: u8, case: &[String]) -> Station {
    run_as(|call, _| call, station, name, case)
}

/// The same with another call in the place of the line's, by the key that the recipient holds.
fn run_as(other: fn(Call, &Key) -> Call, station: Station, name: u8, case: &[String]) -> Station {
    let arrow = case.iter().position(|field| field == "->").expect("an arrow");
    let key = if [A, B].contains(&name) { held(slot(&station, name)) } else { held(&empty()) };
    let named = Named { name, call: other(call(&case[..arrow]), &key) };
    let made = make(station, &named);
    assert_eq!(made.answer, answer(&named.call, &case[arrow + 1..]), "{case:?}");
    let free = match (&named.call, made.answer.number) {
        (Call::Publish { .. }, 0 | 23) => key.work_length(),
        (Call::PublishSmall { .. }, 0 | 23) => key.small_work_length(),
        _ => 0,
    };
    assert!(only_written(&made.work[free..], &[]), "{case:?}");
    let moves = matches!(named.call.kind(), "load" | "load_network" | "publish" | "publish_small" | "drop");
    assert!(made.station == station || moves && made.answer.number == 0, "the station changed: {case:?}");
    made.station
}

/// The small form for a publish, with a workspace that is as much too short or too long for it.
fn small(call: Call, key: &Key) -> Call {
    let Call::Publish { out, mut work } = call else { return call };
    let length = (key.small_work_length() + work.len()).saturating_sub(key.work_length());
    work.resize(length, UNTOUCHED);
    Call::PublishSmall { out, work }
}

/// Runs all lists for a recipient, with something done behind each call; how many lists and calls, and how many calls were refused
/// with 34. The other's slot stays as it is.
fn run_lists(name: u8, behind: impl FnMut(Station) -> Station) -> (usize, usize, usize) {
    run_lists_as(|call, _| call, name, behind)
}

/// The same with other calls in the places of the lists'.
fn run_lists_as(
    other: fn(Call, &Key) -> Call,
    name: u8,
    mut behind: impl FnMut(Station) -> Station,
) -> (usize, usize, usize) {
    let (mut station, mut lists, mut calls) = (fresh(), 0, 0);
    let (mut ledger, mut turned) = (Ledger::default(), 0);
    for case in cases("calls.txt") {
        match case[0].as_str() {
            "list" => {
                (station, ledger) = (fresh(), Ledger::default());
                lists += 1;
            }
            "end" => {
                assert!(station == with(fresh(), name, ledger.end(&case)), "{case:?}");
                turned += ledger.turned;
            }
            _ => {
                station = behind(run_as(other, station, name, &ledger.line(&case)));
                calls += 1;
            }
        }
    }
    (lists, calls, turned)
}

#[test]
fn lists_end_as_the_ledger() {
    for name in [A, B] {
        let (lists, calls, turned) = run_lists(name, |station| station);
        assert!(lists > 100 && calls > 1500 && turned > 100, "{lists} lists, {calls} calls, {turned} refused with 34");
    }
}

/// The small form counts as a publish.
#[test]
fn lists_with_the_small_form_end_as_the_ledger() {
    for name in [A, B] {
        let (lists, calls, turned) = run_lists_as(small, name, |station| station);
        assert!(lists > 100 && calls > 1500 && turned > 100, "{lists} lists, {calls} calls, {turned} refused with 34");
    }
}

#[test]
fn reports_between_the_calls_change_nothing() {
    let (mut random, mut numbers) = (Random::new(41), vec![]);
    run_lists(A, |station| {
        let (length, room) = (random.below(8), random.below(8));
        let (capsules, mut records) = (random.bytes(length), vec![UNTOUCHED; room]);
        let reported = report(station, A, &capsules, &mut records);
        let expected = calls::report(station.a.state, &Held::new(held(&station.a)), &capsules, room);
        assert_eq!((reported.refused, reported.counts), (expected.number, calls::counts(&expected.written)));
        assert!(only_written(&records, &expected.written), "{records:02x?} is not {expected:02x?}");
        numbers.push(reported.refused);
        reported.station
    });
    assert!([0, 21, 34, 24, 31].iter().all(|number| numbers.contains(number)), "{numbers:?}");
}

#[test]
fn sessions_between_the_calls_change_nothing() {
    let (mut random, mut numbers) = (Random::new(42), vec![]);
    run_lists(B, |station| {
        let key = held(&station.b);
        let capsule = if random.one_in(8) { vec![] } else { random.row(key.capsule_bits()) };
        let secret = random.secret(key.n);
        let derived = session(station, B, &capsule, &secret);
        let expected = calls::session(station.b.state, &Held::new(key), &capsule, &secret);
        assert_eq!((derived.refused, derived.key), expected, "{capsule:02x?} {secret:02x?}");
        numbers.push(derived.refused);
        derived.station
    });
    assert!([0, 21, 34, 24, 8, 33].iter().all(|number| numbers.contains(number)), "{numbers:?}");
}
