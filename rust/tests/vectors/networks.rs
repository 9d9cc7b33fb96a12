//! network.txt, and the network files of the standard's folders and of the folders of words.

use shearcotter::raw::A;
use shearcotter::{from_network, to_network, Name, Refusal, Station};

use super::{at, expected, loaded, STANDARD};
use crate::independent::calls;
use crate::support::bytes;
use crate::support::raw_calls::{self, fresh};
use crate::support::vectors::{cases, exists, file, names};

fn number<A>(answer: &Result<A, Refusal>) -> u8 {
    answer.as_ref().map_or_else(|refusal| refusal.number(), |_| 0)
}

/// The conversion of a network file as a case says, by the calls and by the second implementation; its number.
fn same_old(network: &[u8], case: &[String]) -> u8 {
    let (answer, second) = (from_network(network), calls::from_network(network, usize::MAX));
    match expected(case) {
        Ok(fields) => assert_eq!(answer.as_deref(), Ok(&bytes(fields[0])[..]), "{case:?}"),
        Err(refused) => assert_eq!(number(&answer), refused, "{case:?}"),
    }
    assert_eq!((second.number, &second.written), (number(&answer), &answer.clone().unwrap_or_default()), "{case:?}");
    assert_eq!(number(&Station::fresh().load_network(Name::B, network)), second.number, "{case:?}");
    second.number
}

#[test]
fn lines_of_conversions() {
    let (mut there, mut numbers) = (0, vec![]);
    for case in cases("network.txt") {
        match case[0].as_str() {
            "old2new" => {
                let [old, new] = [1, 2].map(|i| bytes(&case[i]));
                assert_eq!(to_network(&old).as_deref(), Ok(&new[..]), "{case:?}");
                assert_eq!(calls::to_network(&old, usize::MAX).written, new, "the second implementation: {case:?}");
                assert_eq!(from_network(&new).as_deref(), Ok(&old[..]), "{case:?}");
                there += 1;
            }
            "new2old" => numbers.push(same_old(&bytes(&case[1]), &case[2..])),
            other => panic!("no such line: {other}"),
        }
    }
    let accepted = numbers.iter().filter(|number| **number == 0).count();
    assert!(there >= 32 && accepted > 70, "{there} there, {accepted} back");
    assert!([1, 2, 36, 3, 4, 6, 7].iter().all(|number| numbers.contains(number)), "{numbers:?}");
}

/// The standard's own control bits and those of the conversion are one key, which is that of key.bin.
fn same_key(name: &str) {
    let at = |part: &str| at(name, part);
    let (key, network, standard) = (at("key.bin"), at("key_network.bin"), at("key_network_standard.bin"));
    assert!(to_network(&key).as_ref() == Ok(&network), "{name}");
    assert!(calls::to_network(&key, usize::MAX).written == network, "the second implementation: {name}");
    let expected = raw_calls::load(fresh(), A, &key);
    assert_eq!(expected.refused, 0, "{name}");
    for file in [&network, &standard] {
        assert!(from_network(file).as_ref() == Ok(&key), "{name}");
        assert!(calls::from_network(file, usize::MAX).written == key, "the second implementation: {name}");
        assert!(raw_calls::load_network(fresh(), A, file) == expected, "{name}");
    }
    let bits = at("control_bits.bin");
    let header = standard.len() - bits.len();
    assert!(standard[header..] == bits && standard[..header] == network[..header], "{name}");
}

#[test]
fn every_standard_folder() {
    STANDARD.into_iter().for_each(same_key);
}

/// A private key of the standard has the parts of a network file, as docs/FORMATS.md says.
#[test]
fn a_private_key_becomes_a_network_file() {
    let at = |part: &str| at("mceliece348864", part);
    let (key, network) = (at("key.bin"), at("key_network_standard.bin"));
    let g = &key[key.len() - 128..];
    let private = [&[0; 40][..], g, &at("control_bits.bin"), &at("secret.bin")].concat();
    assert_eq!(private.len(), 6492);
    let shape = [12, 0xa0, 0x0d, 64, 0];
    let count = [0x00, 0xb8, 0x00, 0x00];
    assert!([&shape[..], &private[40..168], &count, &private[168..168 + 5888]].concat() == network);
}

/// The standard's own bits: loaded, published, and a capsule opened.
#[test]
fn a_partner_s_file_opens() {
    for name in ["mceliece348864", "mceliece6960119"] {
        let mut station = Station::fresh();
        station.load_network(Name::B, &at(name, "key_network_standard.bin")).expect("load accepts");
        assert!(station.publish(Name::B).expect("publish accepts") == at(name, "public.bin"), "{name}");
        let pattern = station.open(Name::B, &at(name, "capsule.bin")).expect("it opens");
        assert_eq!(pattern.bytes(), at(name, "pattern.bin"), "{name}");
    }
}

#[test]
fn every_folder_of_words() {
    let folders = names("words").into_iter().map(|name| format!("words/{name}"));
    let with_network: Vec<_> = folders.filter(|folder| exists(&format!("{folder}/key_network.bin"))).collect();
    assert!(with_network.len() >= 26, "{with_network:?}");
    for folder in with_network {
        let [key, network] = ["key.bin", "key_network.bin"].map(|part| file(&format!("{folder}/{part}")));
        assert!(to_network(&key).as_ref() == Ok(&network), "{folder}");
        assert!(from_network(&network).as_ref() == Ok(&key), "{folder}");
        let mut station = Station::fresh();
        station.load_network(Name::A, &network).expect("load accepts");
        assert_eq!(station.shape(Name::A), loaded(&key).shape(Name::A), "{folder}");
    }
}
