//! Buffers as they are lent to the library: between guards, whose elements are known and looked at
//! after the call.

/// Guard elements on each side. An odd number, so that byte buffers stand at odd addresses.
const GUARD: usize = 61;

/// An element's type, with its guard elements, which differ from place to place.
pub trait Element: Copy + PartialEq {
    fn guard(place: usize) -> Self;
}

impl Element for u8 {
    fn guard(place: usize) -> u8 {
        0xA5 ^ (place as u8).wrapping_mul(29)
    }
}

impl Element for u16 {
    fn guard(place: usize) -> u16 {
        0xA55A ^ (place as u16).wrapping_mul(0x0929)
    }
}

impl Element for u32 {
    fn guard(place: usize) -> u32 {
        0xA55A_5AA5 ^ (place as u32).wrapping_mul(0x0929_1353)
    }
}

impl Element for grainbodkin_sys::Marker {
    fn guard(place: usize) -> grainbodkin_sys::Marker {
        grainbodkin_sys::Marker {
            id: u16::guard(place),
            x: u16::guard(place + 1),
            y: u16::guard(place + 2),
            height: u16::guard(place + 3),
        }
    }
}

/// A lent buffer between its guards.
pub struct Lent<T> {
    room: Vec<T>,
    length: usize,
}

impl<T: Element> Lent<T> {
    pub fn new(content: impl ExactSizeIterator<Item = T>) -> Lent<T> {
        let length = content.len();
        let mut room: Vec<T> = Vec::with_capacity(length + 2 * GUARD);
        room.extend((0..GUARD).map(T::guard));
        room.extend(content);
        room.extend((GUARD..2 * GUARD).map(T::guard));
        Lent { room, length }
    }

    /// The content's start. It is never null, also where the content is empty.
    pub fn pointer(&mut self) -> *mut T {
        self.room[GUARD..].as_mut_ptr()
    }

    pub fn len(&self) -> usize {
        self.length
    }

    pub fn content(&self) -> &[T] {
        &self.room[GUARD..GUARD + self.length]
    }

    /// Whether every guard element is as it was.
    pub fn intact(&self) -> bool {
        let (front, rest) = self.room.split_at(GUARD);
        let back = &rest[self.length..];
        let guards = front.iter().chain(back);
        guards.zip(0..).all(|(g, place)| *g == T::guard(place))
    }
}

#[cfg(test)]
mod tests {
    use super::*;

    /// A write next to the content, on either side, is seen.
    #[test]
    fn a_changed_guard_is_seen() {
        for length in [0, 1, 5] {
            for place in [GUARD - 1, GUARD + length, 0, 2 * GUARD + length - 1] {
                let mut lent = Lent::new(vec![7u8; length].into_iter());
                assert!(lent.intact());
                lent.room[place] ^= 1;
                assert!(!lent.intact(), "length {length}, place {place}");
            }
        }
    }

    /// A write within the content is no matter of the guards.
    #[test]
    fn content_is_apart_from_its_guards() {
        let mut lent = Lent::new([1u16, 2, 3].into_iter());
        lent.room[GUARD + 2] = 9;
        assert!(lent.intact());
        assert_eq!(lent.content(), [1, 2, 9]);
    }
}
