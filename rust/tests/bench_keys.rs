//! Document 01's bench keys: the rows P1 to P13, and the rows by running.

use shearcotter::{field, lock, Name, Pattern, Refusal, Shape, Station};

pub const K1: [u8; 19] = [4, 6, 0, 1, 0, 9, 0, 13, 0, 15, 0, 14, 0, 11, 0, 1, 0, 0, 0];
pub const K3: [u8; 19] = [4, 6, 0, 1, 0, 14, 0, 9, 0, 13, 0, 15, 0, 11, 0, 1, 0, 0, 0];

/// K1 as a network file: the values 8, 9, 11, 15, 7 and 13, then the others in rising order.
pub const K1_NETWORK: [u8; 18] = [4, 6, 0, 1, 0, 0, 0, 56, 0, 0, 0, 0x60, 0x40, 0xb0, 0x7c, 0x33, 0xfc, 0x84];

/// A key whose g is x times x + 1, with the elements 2 to 10 for its support.
pub const SPLIT: [u8; 27] = [4, 9, 0, 2, 0, 3, 0, 4, 0, 5, 0, 6, 0, 7, 0, 8, 0, 9, 0, 10, 0, 2, 0, 0, 0, 1, 0];

pub fn file(m: u8, support: &[u16], g: &[u16]) -> Vec<u8> {
    let two = |x: &u16| x.to_le_bytes();
    let mut file = vec![m];
    file.extend(two(&(support.len() as u16)));
    file.extend(support.iter().flat_map(two));
    file.extend(two(&(g.len() as u16)));
    file.extend(g.iter().flat_map(two));
    file
}

fn loaded(file: &[u8]) -> Station {
    let mut station = Station::fresh();
    station.load(Name::A, file).expect("load accepts");
    station
}

fn published(file: &[u8]) -> Station {
    let mut station = loaded(file);
    station.publish(Name::A).expect("publish accepts");
    station
}

fn load_number(file: &[u8]) -> u8 {
    let mut station = Station::fresh();
    station.load(Name::A, file).map_or_else(Refusal::number, |()| 0)
}

fn number(answer: Result<Pattern, Refusal>) -> u8 {
    answer.map_or_else(Refusal::number, |_| 0)
}

fn bytes_and_ones(answer: Result<Pattern, Refusal>) -> (Vec<u8>, u16) {
    let pattern = answer.expect("a pattern");
    let ones = pattern.ones();
    (pattern.into_bytes(), ones)
}

#[test]
fn rows_of_k1() {
    let shape = Shape::new(4, 6, 1).expect("a shape");
    let public = loaded(&K1).publish(Name::A).expect("P2");
    assert_eq!(public, [3, 1, 2, 0], "P2");
    assert_eq!(lock(shape, &public, &[0x10]), Ok(vec![3]), "P3");
    let station = published(&K1);
    assert_eq!(bytes_and_ones(station.open(Name::A, &[0x03])), (vec![0x10], 1), "P4");
    assert_eq!(number(station.open(Name::A, &[0x00])), 13, "P5");
    assert_eq!(number(station.open(Name::A, &[0x06])), 13, "P6");
    assert_eq!(number(station.open(Name::A, &[0x13])), 9, "P7");
    assert_eq!(bytes_and_ones(station.read(Name::A, &[0x13])), (vec![0x00], 0), "P8");
    assert_eq!(bytes_and_ones(station.read(Name::A, &[0x24])), (vec![0x01], 1), "P9");
    assert_eq!(number(station.read(Name::A, &[0x06])), 14, "P10");
    assert_eq!(lock(shape, &public, &[0x00]), Err(Refusal::NotTOnes), "K1 lock 00");
}

#[test]
fn rows_of_other_keys() {
    let mut twice = K1;
    twice[13] = 1;
    assert_eq!(load_number(&twice), 5, "P11");
    assert_eq!(loaded(&K3).publish(Name::A), Err(Refusal::DependentColumns), "P12");
    assert_eq!(field::multiply(4, 8, 15), Ok(1), "P13");
    let support: Vec<u16> = (0..16).collect();
    let k2 = loaded(&file(4, &support, &[8, 1]));
    assert_eq!(bytes_and_ones(k2.read(Name::A, &[3, 0])), (vec![3, 0], 2), "K2");
    assert_eq!(load_number(&file(4, &support[2..11], &[1, 0])), 6);
}

#[test]
fn limits_of_n() {
    let support: Vec<u16> = (0..17).collect();
    let with = |n: usize| load_number(&file(4, &support[..n], &[0]));
    assert_eq!([with(4), with(17)], [3, 3]);
    assert_eq!([with(5), with(16)], [7, 7], "past the check of the shape, g is 0 at 0");
}
