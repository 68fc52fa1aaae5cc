//! "A permitted hop homeward".
use crate::asking::{Asking, Labelled};
use crate::distances::is_assured;
use crate::map::Crossing;
use crate::refusals::{first_that_applies, DONE};

/// What asking for the hops homeward leaves: the crossings to which a permitted hop goes, none at
/// home.
#[derive(Clone, Debug, PartialEq, Eq)]
pub struct Homeward {
    pub refusal: u8,
    pub hops: Vec<Crossing>,
    pub labels: Vec<u8>,
}

/// The open neighbours one hop nearer home, the east-west one first.
pub fn permitted(on: &Labelled, home: Crossing, place: Crossing) -> Vec<Crossing> {
    let mut hops: Vec<_> = on
        .map
        .neighbours(place)
        .filter(|&n| on.open(n) && n.distance(home) + 1 == place.distance(home))
        .collect();
    hops.sort_by_key(|n| n.y != place.y);
    hops
}

/// Every permitted hop from the second place asked about towards home, the first.
pub fn hop(asking: Asking) -> Homeward {
    let refusal = asking.refusal(&[]);
    if refusal != DONE {
        return Homeward {
            refusal,
            hops: Vec::new(),
            labels: asking.labels.to_vec(),
        };
    }
    let on = asking.labelled();
    let (home, place) = (asking.places[0], asking.places[1]);
    let refusal = first_that_applies(&[
        (8, &|| on.end_closed(&[home, place])),
        (11, &|| !is_assured(&on, home, place)),
    ]);
    let hops = match refusal {
        DONE => permitted(&on, home, place),
        _ => Vec::new(),
    };
    Homeward {
        refusal,
        hops,
        labels: on.sheet(),
    }
}
