//! Reading for m 4 by search: every pattern of at most t ones, by its defining sums; with marks, every code word.

use super::key::Key;
use super::poly::value;

pub struct Reader {
    /// For each place, its t sums α^s / g(α), four bits each.
    columns: Vec<u16>,
    /// For each value of the sums, the pattern that has them.
    patterns: Vec<Option<u16>>,
    /// All words whose sums are 0.
    code_words: Vec<u16>,
}

fn columns(key: &Key) -> Vec<u16> {
    let (f, g) = (key.field(), key.polynomial());
    let column = |alpha: &u16| {
        let mut x = f.invert(value(f, &g, *alpha)).expect("no g(α) is 0");
        let mut sums = 0;
        for s in 0..key.t {
            sums |= x << (4 * s);
            x = f.multiply(x, *alpha);
        }
        sums
    };
    key.support.iter().map(column).collect()
}

impl Reader {
    /// Only for m 4; n is then at most 16 and t at most 3.
    pub fn new(key: &Key) -> Reader {
        let mut reader = Reader { columns: columns(key), patterns: vec![None; 1 << (4 * key.t)], code_words: vec![] };
        reader.enter(0, 0, 0, key.t);
        let words = 0..1_usize << key.n;
        reader.code_words = words.map(|word| word as u16).filter(|word| reader.sums(*word) == 0).collect();
        reader
    }

    /// Enters `pattern` and all patterns that add at most `more` ones from place `from` on.
    fn enter(&mut self, pattern: u16, sums: u16, from: usize, more: usize) {
        let slot = &mut self.patterns[usize::from(sums)];
        assert!(slot.is_none(), "two patterns within t have the same sums");
        *slot = Some(pattern);
        if more == 0 {
            return;
        }
        for i in from..self.columns.len() {
            self.enter(pattern | 1 << i, sums ^ self.columns[i], i + 1, more - 1);
        }
    }

    fn sums(&self, word: u16) -> u16 {
        let ones = self.columns.iter().enumerate();
        ones.filter(|(i, _)| word >> i & 1 == 1).fold(0, |sum, (_, column)| sum ^ column)
    }

    pub fn read(&self, word: u16) -> Option<u16> {
        self.patterns[usize::from(self.sums(word))]
    }

    /// The differences from each code word with 2d + s at most `most`, where s bits are marked and d of the others differ.
    pub fn near(&self, word: u16, marks: u16, most: u32) -> Vec<u16> {
        let differences = self.code_words.iter().map(|code_word| code_word ^ word);
        differences.filter(|e| 2 * (e & !marks).count_ones() + marks.count_ones() <= most).collect()
    }
}
