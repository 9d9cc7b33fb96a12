//! Both forms of publish beside the second implementation, at the raw calls and in the crate: keys of every shape, with a public key,
//! without one, and with a proper factor; outputs and workspaces of every length about what each form needs, whatever the workspace
//! holds before; and whatever lies behind n and t in the slot.

use std::collections::BTreeMap;

use shearcotter::raw::{Slot, MOST_ERRORS, MOST_PLACES};
use shearcotter::{Name, Refusal, Station};

use crate::compare::{small_shapes, STANDARD};
use crate::independent::drawn::has_reading_keys;
use crate::independent::held::Held;
use crate::independent::key::Key;
use crate::independent::random::Random;
use crate::support::forms::{Form, FORMS};
use crate::support::raw_calls::holding;
use crate::support::{only_written, UNTOUCHED};

type Shape = (u8, usize, usize);

/// At the limits of n and t, and some between; with most of them the small form needs the longer workspace.
const OTHERS: [Shape; 10] = [
    (12, 13, 1),
    (13, 14, 1),
    (12, 4095, 1),
    (13, 8191, 1),
    (12, 1537, 128),
    (13, 1665, 128),
    (12, 4096, 128),
    (12, 100, 5),
    (13, 900, 33),
    (13, 1500, 77),
];

/// How often each form answered each number.
type Met = BTreeMap<(&'static str, u8), usize>;

fn meet(met: &mut Met, form: &Form, number: u8) {
    *met.entry((form.name, number)).or_default() += 1;
}

/// Both forms answered each of the numbers.
fn all_met(met: &Met, numbers: &[u8]) {
    for (form, number) in FORMS.iter().flat_map(|form| numbers.iter().map(move |number| (form.name, *number))) {
        assert!(met.contains_key(&(form, number)), "{form} never answered {number}: {met:?}");
    }
}

/// A key with a public key, one without where the shape has such, and one with a proper factor where it has such.
fn keys(random: &mut Random, (m, n, t): Shape) -> Vec<Held> {
    let mut keys = vec![random.published(m, n, t)];
    let mut drawn = (0..100).map(|_| Held::new(random.exchange_key(m, n, t)));
    keys.extend(drawn.find(|held| held.public().is_none()));
    if has_reading_keys((m, n, t)) {
        keys.push(Held::new(random.reading_key(m, n, t)));
    }
    keys
}

/// A workspace that holds zeros, ones or anything.
fn workspace(random: &mut Random, length: usize) -> Vec<u8> {
    match random.below(3) {
        0 => vec![0; length],
        1 => vec![0xFF; length],
        _ => random.bytes(length),
    }
}

#[test]
fn every_length_at_width_4() {
    let (mut random, mut met) = (Random::new(901), Met::new());
    for shape in small_shapes().repeat(4) {
        for held in keys(&mut random, shape) {
            let slot = holding(1, &held.key);
            let most = FORMS.iter().map(|form| (form.needed)(&held.key)).max().expect("two forms");
            for (out, work) in
                (0..=held.key.public_length() + 1).flat_map(|out| (0..=most + 2).map(move |work| (out, work)))
            {
                let lent = workspace(&mut random, work);
                FORMS.iter().for_each(|form| meet(&mut met, form, form.same(&slot, &held, out, &lent)));
            }
        }
    }
    all_met(&met, &[0, 34, 10, 11, 23]);
}

/// Both forms with all that each needs and no byte more, in every state that holds a key: one number.
fn with_all_that_is_needed(random: &mut Random, held: &Held, met: &mut Met) {
    for state in [1, 2, 255] {
        let slot = holding(state, &held.key);
        let numbers = FORMS.each_ref().map(|form| {
            let lent = workspace(random, (form.needed)(&held.key));
            form.same(&slot, held, held.key.public_length(), &lent)
        });
        assert_eq!(numbers[0], numbers[1], "{:?}", held.key);
        FORMS.iter().zip(numbers).for_each(|(form, number)| meet(met, form, number));
    }
}

/// Every g of degree 1 to 3, with the fewest places that there are and with the most.
#[test]
fn every_g_at_width_4() {
    let (mut random, mut met) = (Random::new(902), Met::new());
    for t in 1..=3 {
        for number in 0..1_usize << (4 * t) {
            let g: Vec<u16> = (0..t).map(|i| (number >> (4 * i) & 15) as u16).chain([1]).collect();
            for n in [4 * t + 1, 15, 16] {
                let Some(key) = random.key_of(4, n, &g).filter(|key| key.number() == 0) else { continue };
                with_all_that_is_needed(&mut random, &Held::new(key), &mut met);
            }
        }
    }
    all_met(&met, &[0, 34, 23]);
}

/// Many keys of each shape of width 4, and some of the larger ones up to t 40.
#[test]
fn random_keys() {
    let (mut random, mut met) = (Random::new(903), Met::new());
    for (m, n, t) in small_shapes() {
        for _ in 0..100 {
            let key = random.key(m, n, t);
            with_all_that_is_needed(&mut random, &Held::new(key), &mut met);
        }
    }
    for _ in 0..60 {
        let (m, t) = (*random.pick(&[12, 13]), 1 + random.below(40));
        let n = usize::from(m) * t + 1 + random.below(600);
        let key = random.key(m, n, t);
        with_all_that_is_needed(&mut random, &Held::new(key), &mut met);
    }
    all_met(&met, &[0, 34, 23]);
}

/// About what the form needs, and about what the other does.
fn about_the_bounds(random: &mut Random, held: &Held, met: &mut Met) {
    let (slot, out) = (holding(1, &held.key), held.key.public_length());
    for (form, other) in [(&FORMS[0], &FORMS[1]), (&FORMS[1], &FORMS[0])] {
        let [own, beside] = [form, other].map(|form| (form.needed)(&held.key));
        let rooms = [
            (out, own),
            (out + 1, own + 1),
            (out, own - 1),
            (out - 1, own),
            (out - 1, own - 1),
            (out, 0),
            (0, own),
            (0, 0),
            (out, beside),
            (out, beside - 1),
        ];
        for (out, work) in rooms {
            let lent = workspace(random, work);
            meet(met, form, form.same(&slot, held, out, &lent));
        }
    }
}

#[test]
fn about_the_bounds_at_the_standard_shapes() {
    let (mut random, mut met) = (Random::new(904), Met::new());
    for shape in STANDARD {
        keys(&mut random, shape).iter().for_each(|held| about_the_bounds(&mut random, held, &mut met));
    }
    all_met(&met, &[0, 34, 10, 11, 23]);
}

#[test]
fn about_the_bounds_at_other_shapes() {
    let (mut random, mut met) = (Random::new(905), Met::new());
    for shape in OTHERS {
        keys(&mut random, shape).iter().for_each(|held| about_the_bounds(&mut random, held, &mut met));
    }
    all_met(&met, &[0, 34, 10, 11, 23]);
}

/// Where n is 16·ceil(m·t/8) both workspaces have the same length; with a place more the small one is the shorter.
#[test]
fn where_the_workspaces_are_as_long() {
    let (mut random, mut met) = (Random::new(910), Met::new());
    for (m, t) in [12_u8, 13].into_iter().flat_map(|m| (1..=12).chain([16, 31, 48]).map(move |t| (m, t))) {
        let equal = 16 * (usize::from(m) * t).div_ceil(8);
        for n in [equal, equal + 1] {
            for held in keys(&mut random, (m, n, t)) {
                let [full, small] = FORMS.each_ref().map(|form| (form.needed)(&held.key));
                assert_eq!((full == small, full > small), (n == equal, n > equal), "{m} {n} {t}");
                about_the_bounds(&mut random, &held, &mut met);
            }
        }
    }
    all_met(&met, &[0, 34, 10, 11, 23]);
}

/// T with every number of columns up to 150, and about whole blocks of more.
#[test]
fn every_number_of_columns() {
    let (mut random, mut met) = (Random::new(911), Met::new());
    let blocks =
        [256, 320, 512, 640, 1024, 1536, 2048, 3072].into_iter().flat_map(|block| [block - 1, block, block + 1]);
    for columns in (1..=150).chain(blocks) {
        for (m, t) in [(12, 2), (13, 5), (13, 40)] {
            let held = random.published(m, usize::from(m) * t + columns, t);
            with_all_that_is_needed(&mut random, &held, &mut met);
        }
    }
    all_met(&met, &[0]);
}

/// Numbers behind the first n and t, which no call looks at: anything, all ones, an element of the support, and one at which g is 0,
/// where there is one.
fn with_noise(random: &mut Random, key: &Key) -> Vec<Slot> {
    let mut slot = holding(1, key);
    let fills = [None, Some(0xFFFF), Some(key.support[0]), (key.t == 1).then(|| key.g[0])];
    fills
        .map(|fill| {
            let behind = slot.key.support[key.n..MOST_PLACES].iter_mut().chain(&mut slot.key.g[key.t..MOST_ERRORS]);
            behind.for_each(|x| *x = fill.unwrap_or_else(|| random.number() as u16));
            slot
        })
        .into()
}

#[test]
fn what_lies_behind_n_and_t_does_not_count() {
    let mut random = Random::new(906);
    let large = OTHERS.into_iter().chain([(12, 3488, 64)]);
    for shape in small_shapes().into_iter().chain(large) {
        for held in keys(&mut random, shape) {
            for (slot, form) in
                with_noise(&mut random, &held.key).iter().flat_map(|slot| FORMS.iter().map(move |form| (slot, form)))
            {
                let lent = workspace(&mut random, (form.needed)(&held.key));
                form.same(slot, &held, held.key.public_length(), &lent);
            }
        }
    }
}

/// In the crate, with buffers of its own and with lent ones, beside the other recipient.
#[test]
fn through_the_crate() {
    let mut random = Random::new(907);
    for shape in small_shapes().into_iter().chain([(12, 100, 5), (12, 3488, 64), (13, 6960, 119)]) {
        for held in keys(&mut random, shape) {
            for (form, name) in FORMS.iter().flat_map(|form| Name::BOTH.map(|name| (form, name))) {
                same_in_the_crate(&mut random, form, &held, name);
            }
        }
    }
}

fn same_in_the_crate(random: &mut Random, form: &Form, held: &Held, name: Name) {
    let said = || format!("{} {name}: {:?}", form.name, held.key);
    let mut station = Station::fresh();
    station.load(name, &held.key.file()).expect("load accepts");
    let shape = station.shape(name).expect("a shape");
    let (out, work) = (shape.public_length() + 2, form.workspace.length(shape));
    assert_eq!(work, (form.needed)(&held.key), "{}", said());
    for work in [work - 1, work, work + 3] {
        let expected = (form.expected)(1, held, out, work);
        let (mut public, lent) = (vec![UNTOUCHED; out], workspace(random, work));
        let mut after = lent.clone();
        let answer = station.publish_into_with(name, form.workspace, &mut public, &mut after);
        assert_eq!(answer.map_or_else(Refusal::number, |()| 0), expected.number, "{}", said());
        assert!(only_written(&public, &expected.written), "{}", said());
        let free = if matches!(expected.number, 0 | 23) { (form.needed)(&held.key) } else { 0 };
        assert!(after[free..] == lent[free..], "{}", said());
        assert_eq!(station.is_published(name), expected.number == 0, "{}", said());
    }
    let expected = (form.expected)(1, held, usize::MAX, usize::MAX);
    let public = station.publish_with(name, form.workspace);
    assert_eq!(public.as_ref().map_or_else(|refusal| refusal.number(), |_| 0), expected.number, "{}", said());
    assert!(public.unwrap_or_default() == expected.written, "{}", said());
    assert_eq!((station.is_published(name), station.shape(name.other())), (expected.number == 0, None), "{}", said());
}
