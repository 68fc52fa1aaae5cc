//! All memory of a case as it is lent to the library, each buffer between guards.
use crate::case::Memory;
use crate::guard::Lent;
use grainbodkin_sys as sys;
use independent::markers::Marker;

/// All memory of a case, lent.
pub struct Lendings {
    pub list: Lent<sys::Marker>,
    pub labels: Lent<u8>,
    pub sheets: [Lent<u16>; 4],
    pub region: Lent<u8>,
    pub picture: Lent<u16>,
    pub route: Lent<u16>,
    pub state: Lent<u32>,
    pub drawn: Lent<u16>,
    pub file: Lent<u8>,
    pub out: Lent<u8>,
}

impl Lendings {
    pub fn new(before: &Memory) -> Lendings {
        let bytes = |content: &[u8]| Lent::new(content.iter().copied());
        let numbers = |content: &[u16]| Lent::new(content.iter().copied());
        let there = |m: &Marker| sys::Marker {
            id: m.id,
            x: m.x,
            y: m.y,
            height: m.height,
        };
        Lendings {
            list: Lent::new(before.list.iter().map(there)),
            labels: bytes(&before.labels),
            sheets: std::array::from_fn(|way| numbers(&before.sheets[way])),
            region: bytes(&before.region),
            picture: numbers(&before.picture),
            route: numbers(&before.route),
            state: Lent::new([before.state].into_iter()),
            drawn: numbers(&before.drawn),
            file: bytes(&before.file),
            out: bytes(&before.out),
        }
    }

    pub fn memory(&self) -> Memory {
        let back = |m: &sys::Marker| Marker {
            id: m.id,
            x: m.x,
            y: m.y,
            height: m.height,
        };
        Memory {
            list: self.list.content().iter().map(back).collect(),
            labels: self.labels.content().to_vec(),
            sheets: std::array::from_fn(|way| self.sheets[way].content().to_vec()),
            region: self.region.content().to_vec(),
            picture: self.picture.content().to_vec(),
            route: self.route.content().to_vec(),
            state: self.state.content()[0],
            drawn: self.drawn.content().to_vec(),
            file: self.file.content().to_vec(),
            out: self.out.content().to_vec(),
        }
    }

    /// The buffers whose guards were changed.
    pub fn broken(&self) -> Vec<&'static str> {
        let guards = [
            ("list", self.list.intact()),
            ("labels", self.labels.intact()),
            ("east", self.sheets[0].intact()),
            ("south", self.sheets[1].intact()),
            ("west", self.sheets[2].intact()),
            ("north", self.sheets[3].intact()),
            ("region", self.region.intact()),
            ("picture", self.picture.intact()),
            ("route", self.route.intact()),
            ("state", self.state.intact()),
            ("drawn", self.drawn.intact()),
            ("file", self.file.intact()),
            ("out", self.out.intact()),
        ];
        let changed = guards.into_iter().filter(|(_, intact)| !intact);
        changed.map(|(name, _)| name).collect()
    }
}
