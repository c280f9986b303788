//! Blocks: which firms may enter no new orders just now, in one byte of the header.

/// As many places as the header has for firms, a bit for each.
const PLACES: usize = 8;

/// Whether each place's firm is blocked. A firm that is listed twice goes by its first place, so that
/// what stands at the other is carried and means nothing.
#[derive(Clone, Copy, Debug, Default, PartialEq, Eq)]
pub struct Blocks([bool; PLACES]);

impl Blocks {
    /// The blocks of this byte, the lowest bit the first place's, or nothing where a bit stands past
    /// so many firms.
    pub fn of(byte: u8, firms: usize) -> Option<Blocks> {
        let places: [bool; PLACES] = std::array::from_fn(|place| byte & bit(place) != 0);
        let past = places.iter().skip(firms).any(|&blocked| blocked);
        (!past).then_some(Blocks(places))
    }

    /// The byte that shows them.
    pub fn byte(self) -> u8 {
        let blocked = (0..PLACES).filter(|&place| self.0[place]);
        blocked.map(bit).sum()
    }

    /// Whether the firm at this place is blocked.
    pub fn at(self, place: usize) -> bool {
        self.0[place]
    }

    /// Blocks the firm at this place, or frees it.
    pub fn set(&mut self, place: usize, blocked: bool) {
        self.0[place] = blocked;
    }
}

fn bit(place: usize) -> u8 {
    1 << place
}
