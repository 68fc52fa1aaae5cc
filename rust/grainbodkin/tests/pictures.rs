//! The two picture calls through the wrapper.
use grainbodkin::{
    read_sheet, write_sheet, Cart, Map, Markers, Place, Refusal, LARGEST, LONGEST_PICTURE,
    NO_DISTANCE, OLD_LARGEST, SIDE, TALLEST,
};

/// Every sheet of distances reads back as the same sheet, and takes the bytes that are foretold.
#[test]
fn distances_read_back() {
    let map = Map::new(12, 7).unwrap();
    let mut markers = Markers::new(map, 4);
    for (id, x, y) in [(1, 3, 2), (2, 4, 3), (3, 9, 6)] {
        markers.enter(id, Place::new(x, y), TALLEST).unwrap();
    }
    let distances = markers.measure(Cart::LOWEST).unwrap();
    let (east, south) = (distances.east(), distances.south());
    let (west, north) = (distances.west(), distances.north());
    for sheet in [east, south, west, north] {
        let mut picture = vec![0; map.picture_len()];
        let bytes = write_sheet(sheet, 12, 7, &mut picture).unwrap();
        assert_eq!(bytes, picture.len());
        assert!(picture.starts_with(format!("P5\n12 7\n{LARGEST}\n").as_bytes()));
        let mut back = vec![9; sheet.len()];
        assert_eq!(read_sheet(&picture, &mut back), Ok(map));
        assert_eq!(back, sheet);
    }
}

/// Two bytes a crossing, high byte first, and the north row first.
#[test]
fn high_byte_first() {
    let sheet = [1, 255, 256, NO_DISTANCE];
    let mut picture = [9; 24];
    assert_eq!(write_sheet(&sheet, 2, 2, &mut picture), Ok(21));
    let written = b"P5\n2 2\n65535\n\x01\0\xff\xff\0\x01\0\xff";
    assert_eq!(&picture[..21], written);
    assert_eq!(picture[21..], [9; 3]);
    let mut back = [9; 4];
    assert_eq!(read_sheet(written, &mut back), Map::new(2, 2));
    assert_eq!(back, sheet);
}

/// An old picture has one byte a crossing, and its 255 becomes the mark.
#[test]
fn old_pictures() {
    let head = format!("P5\n256 1\n{OLD_LARGEST}\n");
    let file: Vec<u8> = head.bytes().chain(0..=255).collect();
    let mut sheet = [9; 256];
    assert_eq!(read_sheet(&file, &mut sheet), Map::new(256, 1));
    assert!((0..255).eq(sheet[..255].iter().copied()));
    assert_eq!(sheet[255], NO_DISTANCE);
}

/// The largest picture takes the most bytes, and one byte less is refused and changes nothing.
#[test]
fn longest() {
    let sheet = vec![7; SIDE * SIDE];
    let mut out = vec![1; LONGEST_PICTURE];
    assert_eq!(
        write_sheet(&sheet, SIDE, SIDE, &mut out),
        Ok(LONGEST_PICTURE)
    );
    let mut short = vec![1; LONGEST_PICTURE - 1];
    let refused = write_sheet(&sheet, SIDE, SIDE, &mut short);
    assert_eq!(refused, Err(Refusal::ShortOutput));
    assert!(short.iter().all(|b| *b == 1));
}

/// Each refusal of reading before those that stand after it in the order, and the sheet stays.
#[test]
fn order_of_reading() {
    let rows: [(&[u8], usize, Refusal); 14] = [
        (b"P4 0 3 9 ", 5, Refusal::BadLetters),
        (b"P5 0 3 ", 5, Refusal::BadHeader),
        (b"P5 0 3 9 ", 5, Refusal::BadSize),
        (b"P5 257 3 255 ", 5, Refusal::BadSize),
        (b"P5 2 3 9 ", 5, Refusal::BadLargest),
        (b"P5 2 3 256 abcdefabcdef", 6, Refusal::BadLargest),
        (b"P5 2 3 65534 ", 5, Refusal::BadLargest),
        (b"P5 2 3 255 ", 5, Refusal::BadSheet),
        (b"P5 2 3 65535 ", 12, Refusal::BadSheet),
        (b"P5 2 3 255 abcde", 6, Refusal::ShortRaster),
        (b"P5 2 3 255 abcdefg", 6, Refusal::LongRaster),
        (b"P5 2 3 65535 abcdef", 6, Refusal::ShortRaster),
        (b"P5 2 3 65535 abcdefabcde", 6, Refusal::ShortRaster),
        (b"P5 2 3 65535 abcdefabcdefa", 6, Refusal::LongRaster),
    ];
    for (file, lent, refusal) in rows {
        let mut sheet = vec![8; lent];
        assert_eq!(read_sheet(file, &mut sheet), Err(refusal));
        assert_eq!(sheet, vec![8; lent]);
    }
}
