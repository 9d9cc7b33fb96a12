//! words: publishing, reading, opening and locking with one key a folder.

use shearcotter::raw::{Slot, B};
use shearcotter::{lock, Name, Pattern, Refusal, Station, Workspace};

use super::{expected, loaded, same_pattern, same_records, with_a_factor};
use crate::independent::held::Held;
use crate::independent::key::Key;
use crate::support::forms::FORMS;
use crate::support::raw_calls::{self, held, placed};
use crate::support::vectors::{cases, exists, file, names};
use crate::support::{bytes, UNTOUCHED};

/// One folder's key, as the cases use it.
struct Label {
    station: Station,
    /// The same key in a slot made by hand with the mark, for keys that publish refuses.
    marked: Slot,
    /// What [I|T] is made of, whether or not publish writes it.
    public: Option<Vec<u8>>,
    /// Whether g has a proper factor, by the second implementation.
    split: bool,
}

impl Label {
    fn new(folder: &str) -> Label {
        let key = file(&format!("{folder}/key.bin"));
        let name = format!("{folder}/public.bin");
        let public = exists(&name).then(|| file(&name));
        let split = Held::new(Key::parse(&key).expect("a key")).has_factor();
        let written = if split { None } else { public.clone() };
        let [station, _] = Workspace::BOTH.map(|workspace| {
            let mut station = loaded(&key);
            let answer = station.publish_with(Name::A, workspace).ok();
            assert!(answer == written, "public key of {folder}, {workspace:?}");
            station
        });
        let raw = raw_calls::load(raw_calls::fresh(), B, &key).station;
        let marked = raw_calls::holding(2, &held(&raw.b));
        Label { station, marked, public, split }
    }

    /// The folder's lines, as they are since request L5.
    fn cases(&self, folder: &str) -> Vec<Vec<String>> {
        let mut list = cases(&format!("{folder}/cases.txt"));
        let many = format!("{folder}/many.txt");
        if exists(&many) {
            list.extend(cases(&many));
        }
        if self.split {
            list = list.iter().map(|case| with_a_factor(case)).collect();
        }
        list
    }

    /// Opening as if published; with a proper factor also before.
    fn open(&self, capsule: &[u8], case: &[String]) {
        if self.split || self.public.is_some() {
            same_pattern(self.station.open(Name::A, capsule), case);
        }
        for (name, station) in placed(self.marked) {
            let mut out = vec![0; usize::from(self.marked.key.n).div_ceil(8)];
            let reply = raw_calls::open(station, name, capsule, &mut out);
            match expected(case) {
                Ok(fields) => assert_eq!((reply.refused, out), (0, bytes(fields[0])), "{case:?}"),
                Err(number) => assert_eq!(reply.refused, number, "{case:?}"),
            }
        }
    }

    fn lock(&self, pattern: &[u8], case: &[String]) {
        let public = self.public.as_deref().expect("a public key");
        let shape = self.station.shape(Name::A).expect("a shape");
        let capsule = lock(shape, public, pattern);
        let expected = expected(case).map(|fields| bytes(fields[0]));
        assert_eq!(capsule.map_err(Refusal::number), expected, "{case:?}");
    }

    fn run(&self, case: &[String]) {
        match case[0].as_str() {
            "publish" => {
                let number = expected(&case[1..]).map_or_else(|number| number, |_| 0);
                assert_eq!(self.publish(), [number; 2], "{case:?}");
            }
            "read" => same_pattern(self.read(&case[1]), &case[2..]),
            "open" => self.open(&bytes(&case[1]), &case[2..]),
            "lock" => self.lock(&bytes(&case[1]), &case[2..]),
            other => panic!("no such call: {other}"),
        }
    }

    /// The numbers of both forms of publish on a loaded slot, with all the room that they need.
    fn publish(&self) -> [u8; 2] {
        let (key, [_, (name, loaded)]) = (held(&self.marked), placed(Slot { state: 1, ..self.marked }));
        FORMS.each_ref().map(|form| {
            let (mut out, mut work) = (vec![0; key.public_length()], vec![0; (form.needed)(&key)]);
            (form.call)(loaded, name, &mut out, &mut work).refused
        })
    }

    /// The reports on the capsules of the cases; how many stand in them. With a proper factor all are refused with 34.
    fn report(&self, cases: &[Vec<String>]) -> usize {
        if !self.split {
            return same_records(&self.marked, cases);
        }
        for case in cases.iter().filter(|case| case[0] == "open") {
            for (name, station) in placed(self.marked) {
                let mut records = [UNTOUCHED];
                let reported = raw_calls::report(station, name, &bytes(&case[1]), &mut records);
                assert_eq!((reported.refused, reported.counts, records), (34, [0; 256], [UNTOUCHED]), "{case:?}");
            }
        }
        0
    }

    fn read(&self, word: &str) -> Result<Pattern, Refusal> {
        self.station.read(Name::A, &bytes(word))
    }
}

/// What all folders have together.
#[derive(Default, Debug)]
struct Total {
    cases: usize,
    /// Capsules that stand in reports.
    reported: usize,
    /// Keys, and lines refused with 34, whose g has a proper factor.
    split: usize,
    refused: usize,
}

fn run_all(wanted: impl Fn(&str) -> bool) -> Total {
    let mut total = Total::default();
    for name in names("words").iter().filter(|name| wanted(name)) {
        let folder = format!("words/{name}");
        let label = Label::new(&folder);
        let list = label.cases(&folder);
        list.iter().for_each(|case| label.run(case));
        total.cases += list.len();
        total.reported += label.report(&list);
        total.split += usize::from(label.split);
        total.refused += list.iter().filter(|case| case.ends_with(&["refused".to_owned(), "34".to_owned()])).count();
    }
    total
}

#[test]
fn small() {
    let Total { cases, reported, split, refused } = run_all(|name| name.starts_with("m4-"));
    assert!(cases > 20_000 && reported > 2_000, "{cases} cases, {reported} records");
    assert!(split > 3 && refused > 500, "{split} keys with a proper factor, {refused} lines");
}

#[test]
fn large() {
    let total = run_all(|name| name.starts_with("mceliece"));
    // The folders of words have no large key with an irreducible g.
    assert_eq!((total.split, total.reported), (3, 0), "{total:?}");
    assert!(total.cases > 60 && total.refused > 40, "{total:?}");
}
