//! keyfiles.txt.

use shearcotter::{Name, Refusal, Station};

use crate::independent::key::load_number;
use crate::support::bytes;
use crate::support::vectors::cases;

#[test]
fn key_files() {
    let cases = cases("keyfiles.txt");
    assert!(cases.len() > 600);
    for case in cases {
        let expected: u8 = case[0].parse().expect("a number");
        let file = bytes(&case[1]);
        let mut station = Station::fresh();
        let number = station.load(Name::A, &file).map_or_else(Refusal::number, |()| 0);
        assert_eq!(number, expected, "{case:?}");
        assert_eq!(station.shape(Name::A).is_some(), expected == 0);
        assert_eq!(load_number(&file), expected, "the second implementation: {case:?}");
    }
}
