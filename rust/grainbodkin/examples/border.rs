//! What Rust sees at the border, a line each: the size and alignment of every struct, each field's
//! name, offset and size; the limits; and every refusal and reason in words. tests/border/layout.c
//! prints the same of C; tests/border/run compares the two.
use grainbodkin::{
    Map, Reason, Refusal, LARGEST, LONGEST_FILE, LONGEST_PICTURE, MARKERS, NO_DISTANCE,
    OLD_LARGEST, SIDE, STACK, TALLEST,
};
use grainbodkin_sys::{
    Assurance, Checked, Counted, CrossingLines, Drove, Four, Homeward, Labelling, Marker, ReadMap,
    SheetRead, SheetWritten, Swept, WroteMap,
};
use std::mem::{align_of, offset_of, size_of, size_of_val};

/// A struct by its header's name, with a value to measure its fields by.
macro_rules! layout {
    ($name:literal, $type:ident { $($field:ident: $value:expr),+ }) => {{
        println!("{} {} {}", $name, size_of::<$type>(), align_of::<$type>());
        let all = $type { $($field: $value),+ };
        $(println!(
            "{}.{} {} {}",
            $name,
            stringify!($field),
            offset_of!($type, $field),
            size_of_val(&all.$field)
        );)+
    }};
}

fn main() {
    layout!(
        "marker",
        Marker {
            id: 0,
            x: 0,
            y: 0,
            height: 0
        }
    );
    layout!(
        "counted",
        Counted {
            refusal: 0,
            count: 0
        }
    );
    layout!(
        "labelling",
        Labelling {
            refusal: 0,
            rocks: 0,
            shut: 0,
            groups: 0
        }
    );
    layout!(
        "swept",
        Swept {
            refusal: 0,
            sweeps: 0
        }
    );
    layout!(
        "four",
        Four {
            refusal: 0,
            four: [0; 4]
        }
    );
    layout!(
        "assurance",
        Assurance {
            refusal: 0,
            assured: false
        }
    );
    layout!(
        "homeward",
        Homeward {
            refusal: 0,
            hops: 0,
            x: 0,
            y: 0,
            a: 0,
            b: 0
        }
    );
    layout!(
        "drove",
        Drove {
            refusal: 0,
            length: 0
        }
    );
    layout!(
        "checked",
        Checked {
            refusal: 0,
            reason: 0,
            position: 0
        }
    );
    layout!(
        "crossing_lines",
        CrossingLines {
            refusal: 0,
            yes: false,
            column: 0,
            row: 0
        }
    );
    layout!(
        "read_map",
        ReadMap {
            refusal: 0,
            width: 0,
            height: 0,
            count: 0
        }
    );
    layout!(
        "wrote_map",
        WroteMap {
            refusal: 0,
            bytes: 0
        }
    );
    layout!(
        "sheet_written",
        SheetWritten {
            refusal: 0,
            bytes: 0
        }
    );
    layout!(
        "sheet_read",
        SheetRead {
            refusal: 0,
            width: 0,
            height: 0
        }
    );
    let largest = Map::new(SIDE, SIDE).expect("the largest map");
    println!("side {SIDE}\nmarkers {MARKERS}\nno distance {NO_DISTANCE}\ntallest {TALLEST}");
    println!("crossings {}\nroute {}", largest.crossings(), 2 * SIDE - 1);
    println!("file {LONGEST_FILE}\npicture {LONGEST_PICTURE}\nlargest {LARGEST}");
    println!("old largest {OLD_LARGEST}\nstack {STACK}");
    for refusal in Refusal::ALL {
        println!("{refusal}");
    }
    for reason in Reason::ALL {
        println!("reason {}: {reason}", reason.number());
    }
}
