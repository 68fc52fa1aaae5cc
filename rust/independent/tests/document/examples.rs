//! The settled examples 1 to 12 and the labelling program's, as document 01 gives them.
use crate::common::*;
use independent::distances::{assured, distances, measure};
use independent::drives::{drive, region, region_of};
use independent::labels::{groups, label};
use independent::map::{Map, WAYS};
use independent::text::label_text;

#[test]
fn example_1_no_rocks() {
    let after = label(&[], 0, EIGHT, 0, &[OLD; 64]);
    assert_eq!(
        (after.refusal, after.rocks, after.shut, after.groups),
        (0, 0, 0, 0)
    );
    assert_eq!(after.labels, [0; 64]);
    let sheets = [[OLD_NUMBER; 64]; 4];
    let measured = measure(
        asking(&[], &[OLD; 64], &[]),
        std::array::from_fn(|i| &sheets[i][..]),
    );
    assert!(measured.sheets.iter().all(|sheet| sheet == &[65_535; 64]));
}

#[test]
fn examples_2_to_5_labels() {
    assert_eq!(shut(&labelled(&[(1, 1), (1, 2), (2, 1)])), set(&[(2, 2)]));
    assert_eq!(shut(&labelled(&[(1, 1), (3, 1)])), set(&[(2, 1)]));
    let two = labelled(&[(1, 1), (4, 1)]);
    assert_eq!(shut(&two), set(&[]));
    assert_eq!(groups(EIGHT, &two.closed).len(), 2);
    assert_eq!(shut(&labelled(&[(0, 0), (1, 1)])), set(&[(1, 0), (0, 1)]));
}

#[test]
fn example_6_the_group_of_r() {
    let on = labelled(&R);
    let whole = set(&[(3, 2), (4, 2), (5, 2), (3, 3), (4, 3), (5, 3)]);
    assert_eq!(groups(EIGHT, &on.closed), [whole]);
    assert_eq!(shut(&on), set(&[(4, 2), (3, 3), (5, 3)]));
    let after = label(&markers(&R), 3, EIGHT, 0, &[OLD; 64]);
    assert_eq!(
        (after.refusal, after.rocks, after.shut, after.groups),
        (0, 3, 3, 1)
    );
}

#[test]
fn example_7_distances() {
    let list = markers(&R);
    let four = |x, y| distances(asking(&list, &[OLD; 64], &[at(x, y)])).four;
    assert_eq!(four(0, 2), [3, 65_535, 65_535, 65_535]);
    assert_eq!(four(4, 0), [65_535, 65_535, 65_535, 2]);
    assert_eq!(four(4, 2), [0; 4]);
    // The whole map's sheets say the same of every crossing.
    let sheets = [[OLD_NUMBER; 64]; 4];
    let measured = measure(
        asking(&list, &[OLD; 64], &[]),
        std::array::from_fn(|i| &sheets[i][..]),
    );
    for c in EIGHT.crossings() {
        let of_sheets = std::array::from_fn(|way| measured.sheets[way][EIGHT.number(c)]);
        assert_eq!(four(c.x, c.y), of_sheets, "{c:?} {WAYS:?}");
    }
}

#[test]
fn example_8_assurance() {
    let list = markers(&R);
    for (place, yes) in [((2, 5), true), ((3, 5), true), ((4, 5), false)] {
        let after = assured(asking(&list, &[OLD; 64], &[at(0, 2), at(place.0, place.1)]));
        assert_eq!((after.refusal, after.assured), (0, yes), "{place:?}");
    }
}

#[test]
fn example_9_no_shortest_drive() {
    let list = markers(&R);
    let around = |y| {
        let places = [at(0, 2), at(7, y)];
        drive(
            asking(&list, &[OLD; 64], &places),
            &[OLD; 64],
            &[0xAAAA; 12],
            5,
        )
    };
    let refused = around(2);
    assert_eq!((refused.refusal, refused.length, refused.state), (9, 0, 5));
    assert_eq!(refused.labels, labelled(&R).sheet());
    assert_eq!(refused.region, [0; 64]);
    assert_eq!(refused.route, [0xAAAA; 12]);
    let driven = around(4);
    assert_eq!((driven.refusal, driven.length), (0, 10));
    assert_eq!((driven.route[0], driven.route[9]), (16, 39));
    assert_eq!(driven.route[10..], [0xAAAA; 2]);
}

#[test]
fn example_10_region() {
    let list = markers(&R);
    let places = [at(0, 0), at(7, 3)];
    let after = region(asking(&list, &[OLD; 64], &places), &[OLD; 64]);
    assert_eq!(after.refusal, 0);
    assert_eq!(
        after.region.iter().map(|&b| usize::from(b)).sum::<usize>(),
        20
    );
    for (x, y) in [(0, 2), (1, 2), (2, 2), (0, 3), (1, 3), (2, 3)] {
        assert_eq!(after.region[EIGHT.number(at(x, y))], 0);
    }
}

#[test]
fn example_11_drive() {
    let places = [at(0, 0), at(2, 1)];
    let after = drive(asking(&[], &[OLD; 64], &places), &[OLD; 64], &[9; 5], 0);
    assert_eq!((after.refusal, after.length), (0, 4));
    assert_eq!(after.route, [0, 1, 2, 10, 9]);
    assert_eq!(after.state, 0xD1CC_F6E9);
}

/// Document 02, "Draw once for every hop": past the rocks of R and without them the crossings are
/// the same here, with two hops that have two candidates and with four; and so is the state.
#[test]
fn a_draw_for_every_hop() {
    let places = [at(0, 2), at(7, 4)];
    for list in [markers(&R), markers(&[])] {
        let after = drive(asking(&list, &[OLD; 64], &places), &[OLD; 64], &[9; 10], 0);
        assert_eq!((after.refusal, after.length), (0, 10));
        assert_eq!(after.route, [16, 17, 18, 26, 34, 35, 36, 37, 38, 39]);
        assert_eq!(after.state, 0x81FD_BEE7);
    }
}

#[test]
fn example_12_one_by_one() {
    let one = |rocks: &[(u16, u16)]| {
        let list = markers(rocks);
        let places = [at(0, 0), at(0, 0)];
        let asking = independent::asking::Asking {
            map: Map::new(1, 1),
            ..asking(&list, &[OLD], &places)
        };
        drive(asking, &[OLD], &[7], 3)
    };
    let open = one(&[]);
    assert_eq!((open.refusal, open.length, open.state), (0, 1, 3));
    assert_eq!((open.route, open.region), (vec![0], vec![1]));
    let rock = one(&[(0, 0)]);
    assert_eq!((rock.refusal, rock.length, rock.state), (8, 0, 3));
    assert_eq!(
        (rock.labels, rock.region, rock.route),
        (vec![1], vec![OLD], vec![7])
    );
}

#[test]
fn the_labelling_program() {
    let input = b"P1\n4 3\n0010\n0100\n0000\n";
    assert_eq!(label_text(input), "4 3 2 2 1\n.o#.\n.#o.\n....\n");
    assert_eq!(label_text(b""), "refused 12\n");
    let mut long = b"P1\n1 1\n0".to_vec();
    long.resize(65_536, b' ');
    assert_eq!(label_text(&long), "1 1 0 0 0\n.\n");
    long.push(b' ');
    assert_eq!(label_text(&long), "refused long\n");
}

/// A file with more rocks than a list may hold is refused 7, after the faults of its raster.
#[test]
fn the_labelling_program_and_too_many_rocks() {
    let full = [b"P4 256 256 ".as_slice(), &[0xff; 8192]].concat();
    assert_eq!(label_text(&full), "refused 7\n");
    assert_eq!(label_text(&full[..8202]), "refused 14\n");
    let longer = [full.as_slice(), b"\n"].concat();
    assert_eq!(label_text(&longer), "refused 15\n");
    let mut most = full;
    most[11 + 1024..].fill(0);
    let rows = ["#", "."].map(|sign| sign.repeat(256) + "\n");
    let text = rows[0].repeat(32) + &rows[1].repeat(224);
    assert_eq!(label_text(&most), format!("256 256 8192 0 1\n{text}"));
    most[8202] = 1;
    assert_eq!(label_text(&most), "refused 7\n");
    let plain = format!("P1 256 256 {}", "0".repeat(65_536));
    assert_eq!(label_text(plain.as_bytes()), "refused long\n");
}

/// A distance of 255 is told from none.
#[test]
fn the_longest_distance() {
    let list = markers(&[(255, 0)]);
    let places = [at(0, 0)];
    let asking = independent::asking::Asking {
        map: Map::new(256, 1),
        ..asking(&list, &[OLD; 256], &places)
    };
    assert_eq!(distances(asking).four, [255, 65_535, 65_535, 65_535]);
}

#[test]
fn the_most_drives_are_counted() {
    let map = Map::new(64, 64);
    let on = independent::asking::Labelled::new(map, 0, &[]);
    let (s, d) = (at(0, 0), at(63, 63));
    let drives = independent::drives::beginnings(&on, s, d)[&d];
    assert_eq!(drives, 6034934435761406706427864636568328000);
    assert_eq!(region_of(&on, s, d).len(), 4096);
    // On the largest map they are counted by their remainder, and the region is all of it.
    let on = independent::asking::Labelled::new(Map::new(256, 256), 0, &[]);
    assert_eq!(region_of(&on, s, at(255, 255)).len(), 65_536);
}
