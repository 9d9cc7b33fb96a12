//! irreducible.txt: whether g has a proper factor, by the second implementation and through the crate.

use shearcotter::{Name, Refusal, Station};

use crate::independent::factors;
use crate::independent::field::Field;
use crate::independent::held::Held;
use crate::independent::poly::Poly;
use crate::independent::random::Random;
use crate::support::forms::FORMS;
use crate::support::raw_calls::holding;
use crate::support::vectors::{cases, cases_of};

/// The copy of irreducible.txt that the program factor_vectors reads.
const COPY: &str = include_str!("../../../crates/factor_vectors/data/irreducible.txt");

/// A line: the width, g, and whether it has a proper factor.
struct Line {
    m: u8,
    g: Poly,
    split: bool,
}

fn line(case: &[String]) -> Line {
    let number = |text: &String| text.parse::<u16>().expect("a number");
    let parts: Vec<Vec<u16>> = case.split(|field| field == ":").map(|part| part.iter().map(number).collect()).collect();
    let [shape, g, answer] = &parts[..] else { panic!("three parts: {case:?}") };
    assert_eq!((shape.len(), answer.len(), g.len()), (2, 1, usize::from(shape[1])), "{case:?}");
    assert!(answer[0] < 2, "{case:?}");
    Line { m: shape[0] as u8, g: [g.as_slice(), &[1]].concat(), split: answer[0] == 0 }
}

fn lines() -> Vec<Line> {
    let lines: Vec<Line> = cases("irreducible.txt").iter().map(|case| line(case)).collect();
    assert_eq!(lines.len(), 417);
    lines
}

#[test]
fn the_program_reads_the_same_cases() {
    assert_eq!(cases_of(COPY), cases("irreducible.txt"));
}

#[test]
fn by_the_second_implementation() {
    for Line { m, g, split } in lines() {
        let f = Field::of(m).expect("a width");
        assert_eq!(factors::by_powers(f, &g), split, "{m} {g:?}");
        if m == 4 {
            assert_eq!(factors::by_division(f, &g), split, "{g:?}");
        }
    }
}

/// Where g has a key, publishing into no room answers 34 or 10, in both forms; a g with a square is not loaded.
#[test]
fn through_the_crate() {
    let (mut random, mut met) = (Random::new(417), [0; 3]);
    for Line { m, g, split } in lines() {
        let Some(key) = random.key_of(m, usize::from(m) * (g.len() - 1) + 1, &g) else { continue };
        let mut station = Station::fresh();
        let loaded = station.load(Name::A, &key.file()).map_err(Refusal::number);
        if key.number() == 6 {
            assert_eq!((loaded, split), (Err(6), true), "{m} {g:?}");
            met[2] += 1;
            continue;
        }
        assert_eq!(loaded, Ok(()), "{m} {g:?}");
        assert_eq!(station.is_exchange_key(Name::A), Ok(!split), "{m} {g:?}");
        let held = Held::new(key);
        let slot = holding(1, &held.key);
        assert!(FORMS.iter().all(|form| form.same(&slot, &held, 0, &[]) == if split { 34 } else { 10 }), "{m} {g:?}");
        met[usize::from(split)] += 1;
    }
    let [irreducible, split, square] = met;
    assert!(irreducible > 100 && split > 150 && square > 20, "{met:?}");
}
