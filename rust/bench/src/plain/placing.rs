//! How well a depot is placed: one pass for drives and one for assurance.
use super::distances;
use super::hops::axis;
use super::limits::*;
use super::region::reach;

/// Open crossings, those for which the depot is assured, those not assured with a shortest drive,
/// those with none.
pub type Numbers = [u64; 4];

/// The numbers of a depot at a corner, over labels; `g` is working memory of the map's size.
pub fn place(labels: &[u8], w: usize, h: usize, depot: Place, g: &mut [u8]) -> Numbers {
    let (dx, dy) = depot;
    let mut numbers = [0; 4];
    if labels[dy * w + dx] != OPEN {
        return numbers;
    }
    reach(labels, w, depot, (w - 1 - dx, h - 1 - dy), g);
    let [east, south, west, north] = distances::four(labels, w, dx, dy);
    for (y, (row, marks)) in labels.chunks_exact(w).zip(g.chunks_exact(w)).enumerate() {
        let row_enough = axis(north, south, dy, y);
        for (x, (&label, &mark)) in row.iter().zip(marks).enumerate() {
            let open = label == OPEN;
            let assured = open && row_enough && axis(east, west, dx, x);
            let driven = open && !assured && mark != 0;
            numbers[0] += u64::from(open);
            numbers[1] += u64::from(assured);
            numbers[2] += u64::from(driven);
            numbers[3] += u64::from(open && !assured && !driven);
        }
    }
    numbers
}
