//! Bytes that are wiped from memory after their use.

use std::ops::Deref;

use shearcotter::wipe;

/// Bytes that are wiped when they are dropped or cleared, and where they were before when they move to a longer place.
#[derive(Default)]
pub struct Wiped(Vec<u8>);

impl Wiped {
    pub fn extend(&mut self, bytes: &[u8]) {
        let length = self.0.len() + bytes.len();
        if length > self.0.capacity() {
            let mut longer = Vec::with_capacity(length.max(2 * self.0.capacity()));
            longer.extend_from_slice(&self.0);
            wipe(&mut self.0);
            self.0 = longer;
        }
        self.0.extend_from_slice(bytes);
    }

    pub fn clear(&mut self) {
        wipe(&mut self.0);
        self.0.clear();
    }
}

impl From<Vec<u8>> for Wiped {
    fn from(bytes: Vec<u8>) -> Wiped {
        Wiped(bytes)
    }
}

impl From<String> for Wiped {
    fn from(text: String) -> Wiped {
        Wiped(text.into_bytes())
    }
}

impl Deref for Wiped {
    type Target = [u8];

    fn deref(&self) -> &[u8] {
        &self.0
    }
}

impl Drop for Wiped {
    fn drop(&mut self) {
        wipe(&mut self.0);
    }
}

#[cfg(test)]
mod tests {
    use super::Wiped;

    #[test]
    fn grows_and_is_cleared() {
        let mut bytes = Wiped::default();
        for i in 0..100 {
            bytes.extend(&[i, i]);
            assert_eq!(bytes.len(), 2 * (usize::from(i) + 1));
        }
        assert!(bytes.chunks(2).zip(0..).all(|(pair, i)| pair == [i, i]));
        let capacity = bytes.0.capacity();
        bytes.clear();
        assert_eq!((bytes.len(), bytes.0.capacity()), (0, capacity));
        bytes.extend(b"again");
        assert_eq!(*bytes, *b"again");
        assert_eq!(*Wiped::from("text".to_owned()), *b"text");
    }
}
