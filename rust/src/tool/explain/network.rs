//! What a switching network sends out, to name a place of its support.

use shearcotter::Shape;

/// The first n values behind 2m - 1 layers of switches with these packed settings, their m bits in reverse order.
pub fn support(shape: Shape, settings: &[u8]) -> Vec<u16> {
    let (m, half) = (u32::from(shape.m()), 1 << (shape.m() - 1));
    let mut values: Vec<u16> = (0..2 * half as u16).collect();
    for layer in 0..2 * m - 1 {
        let gap = 1 << layer.min(2 * m - 2 - layer);
        for j in 0..half {
            let (bit, place) = (layer as usize * half + j, j % gap + j / gap * 2 * gap);
            if settings[bit / 8] >> (bit % 8) & 1 == 1 {
                values.swap(place, place + gap);
            }
        }
    }
    for value in &mut values {
        *value = value.reverse_bits() >> (16 - m);
    }
    values.truncate(shape.n().into());
    values
}
