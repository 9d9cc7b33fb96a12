//! `include/shearcotter.h` against the crate: names, numbers and words of refusals, recipients, limits, stack, sizes, version.

use std::mem::{offset_of, size_of};

use shearcotter::{raw, Refusal};

const HEADER: &str = include_str!("../../include/shearcotter.h");

/// A name of C for a name of Rust: NO_CODE_WORD for NoCodeWord.
fn upper(name: &str) -> String {
    let mut upper = String::new();
    for letter in name.chars() {
        if letter.is_uppercase() && !upper.is_empty() {
            upper.push('_');
        }
        upper.extend(letter.to_uppercase());
    }
    upper
}

#[test]
fn refusals_are_those_of_the_crate() {
    let rows = HEADER.lines().filter_map(|line| line.trim().strip_prefix("X(SHEARCOTTER_"));
    let in_c: Vec<&str> = rows.map(|row| row.trim_end_matches('\\').trim_end()).collect();
    let row = |refusal: &Refusal| {
        format!("{}, {}, \"{}\")", upper(&format!("{refusal:?}")), refusal.number(), refusal.condition())
    };
    assert_eq!(in_c, Refusal::ALL.iter().map(row).collect::<Vec<_>>());
    let unknown = format!("return \"{}\";", Refusal::Other(99).condition());
    assert!(HEADER.contains(&unknown), "{unknown}");
}

/// The value that the header gives a name of an enum.
fn constant(name: &str) -> usize {
    let start = format!("SHEARCOTTER_{name} = ");
    let mut values = HEADER.lines().filter_map(|line| line.trim().strip_prefix(&start));
    let value = values.next().unwrap_or_else(|| panic!("no {name} in the header"));
    let digits: String = value.chars().take_while(char::is_ascii_digit).collect();
    digits.parse().unwrap_or_else(|_| panic!("{name}: {value}"))
}

#[test]
fn limits_states_names_and_stack() {
    for (name, value) in [
        ("MOST_PLACES", raw::MOST_PLACES),
        ("MOST_ERRORS", raw::MOST_ERRORS),
        ("LONGEST", raw::LONGEST),
        ("COEFFICIENTS", raw::COEFFICIENTS),
        ("BYTE_VALUES", raw::BYTE_VALUES),
        ("SESSION_BYTES", raw::SESSION_BYTES),
        ("EMPTY", raw::EMPTY.into()),
        ("LOADED", raw::LOADED.into()),
        ("PUBLISHED", raw::PUBLISHED.into()),
        ("A", raw::A.into()),
        ("B", raw::B.into()),
        ("STACK_FRESH", raw::STACK_FRESH / 1024),
        ("STACK_LOAD", raw::STACK_LOAD / 1024),
        ("STACK_LOAD_NETWORK", raw::STACK_LOAD_NETWORK / 1024),
        ("STACK_PUBLISH", raw::STACK_PUBLISH / 1024),
        ("STACK_PUBLISH_SMALL", raw::STACK_PUBLISH_SMALL / 1024),
        ("STACK_LOCK", raw::STACK_LOCK / 1024),
        ("STACK_OPEN", raw::STACK_OPEN / 1024),
        ("STACK_READ", raw::STACK_READ / 1024),
        ("STACK_READ_MARKED", raw::STACK_READ_MARKED / 1024),
        ("STACK_REPORT", raw::STACK_REPORT / 1024),
        ("STACK_SESSION", raw::STACK_SESSION / 1024),
        ("STACK_DROP", raw::STACK_DROP / 1024),
        ("STACK_SHAKE", raw::STACK_SHAKE / 1024),
        ("STACK_TO_NETWORK", raw::STACK_TO_NETWORK / 1024),
        ("STACK_FROM_NETWORK", raw::STACK_FROM_NETWORK / 1024),
    ] {
        assert_eq!(constant(name), value, "{name}");
    }
}

#[test]
fn version_is_the_crate_s() {
    let [major, minor, patch] =
        [env!("CARGO_PKG_VERSION_MAJOR"), env!("CARGO_PKG_VERSION_MINOR"), env!("CARGO_PKG_VERSION_PATCH")];
    let text = format!("#define SHEARCOTTER_VERSION \"{}\"\n", env!("CARGO_PKG_VERSION"));
    let number = format!("#define SHEARCOTTER_VERSION_NUMBER ({major} * 10000 + {minor} * 100 + {patch})\n");
    assert!(HEADER.contains(&text), "{text}");
    assert!(HEADER.contains(&number), "{number}");
}

/// A line of the header's layout for each struct, with sizes and offsets as the crate has them.
#[test]
fn layout_is_the_crate_s() {
    macro_rules! layout {
        ($type:ident $name:literal $($member:ident)*) => {
            let size = size_of::<raw::$type>();
            let line = format!("SHEARCOTTER_SIZE({}, {size})\n", $name);
            assert!(HEADER.contains(&line), "{line}");
            $(
                let offset = offset_of!(raw::$type, $member);
                let line = format!("SHEARCOTTER_OFFSET({}, {}, {offset})\n", $name, stringify!($member));
                assert!(HEADER.contains(&line), "{line}");
            )*
        };
    }
    layout!(Key "key" m n t support g);
    layout!(Slot "slot" state key);
    layout!(Station "station" a b);
    layout!(Reply "reply" station refused ones);
    layout!(Reported "reported" station refused counts);
    layout!(Derived "derived" station refused key);
    layout!(Element "element" refused value);
    layout!(Shape "shape" refused m n t);
    layout!(Register "register" refused length c);
    layout!(Converted "converted" refused length);
}
