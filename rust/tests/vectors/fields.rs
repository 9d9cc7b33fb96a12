//! field.txt and registers.txt.

use shearcotter::{field, register, Refusal};

use crate::support::vectors::{cases, cases_of};

/// The copy of field.txt that the program field_vectors reads.
const COPY: &str = include_str!("../../../crates/field_vectors/data/field.txt");

fn number<T: std::str::FromStr>(text: &str) -> T
where
    T::Err: std::fmt::Debug,
{
    text.parse().expect("a number")
}

/// The answer, or the refusal's number, as the lines have it.
fn words(answer: Result<u16, Refusal>) -> Vec<String> {
    match answer {
        Ok(value) => vec![value.to_string()],
        Err(refusal) => vec!["refused".to_owned(), refusal.number().to_string()],
    }
}

/// The cases of field.txt, which has document 01's answers: there the inverse of 0 is 0. Request L2 turns those lines into
/// a refusal with 32, and no other; the file has them for two widths.
fn field_cases() -> Vec<Vec<String>> {
    let mut cases = cases("field.txt");
    let of_0 = cases.iter_mut().filter(|case| case[0] == "inv" && case[2] == "0");
    let turned = of_0.map(|case| {
        assert_eq!(case.split_off(3), ["0"]);
        case.extend(["refused", "32"].map(str::to_owned));
        case[1].clone()
    });
    assert_eq!(turned.collect::<Vec<_>>(), ["4", "13"]);
    cases
}

#[test]
fn the_program_reads_the_same_cases() {
    assert_eq!(cases_of(COPY), field_cases());
}

#[test]
fn products_and_inverses() {
    let cases = field_cases();
    assert!(cases.len() > 3000);
    for case in cases {
        let m = number(&case[1]);
        let (answer, rest) = match case[0].as_str() {
            "mul" => (field::multiply(m, number(&case[2]), number(&case[3])), &case[4..]),
            "inv" => (field::invert(m, number(&case[2])), &case[3..]),
            other => panic!("no such call: {other}"),
        };
        assert_eq!(words(answer), rest, "{case:?}");
    }
}

#[test]
fn registers() {
    let cases = cases("registers.txt");
    assert!(cases.len() > 600);
    for case in cases {
        let parts: Vec<&[String]> = case.split(|field| field == ":").collect();
        let list: Vec<u16> = parts[1].iter().map(|x| number(x)).collect();
        assert_eq!(list.len(), number::<usize>(&parts[0][1]));
        let answer = register(number(&parts[0][0]), &list);
        if parts[2][0] == "refused" {
            let refusal = answer.expect_err("a refusal");
            assert_eq!(refusal.number().to_string(), parts[2][1]);
            continue;
        }
        let found = answer.expect("a register");
        let mut c: Vec<u16> = parts[3].iter().map(|x| number(x)).collect();
        assert_eq!((found.length() + 1, found.length()), (c.len(), number(&parts[2][0])));
        c.resize(257, 0);
        assert_eq!(found.coefficients()[..], c);
    }
}
