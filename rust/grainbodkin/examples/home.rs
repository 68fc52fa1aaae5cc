//! Reads a map, enters and clears a stone, hops home and drives back.
use grainbodkin::{Cart, Chooser, Markers, Place, Refusal};

/// The cart that goes home: 20 cm of ground clearance.
const CART: Cart = Cart::new(20);

/// Rocks on (2, 2) and (1, 1).
const FILE: &[u8] = b"P1\n5 4\n00000\n00100\n01000\n00000\n";

fn journey() -> Result<(), Refusal> {
    let mut markers = Markers::read(FILE, 100)?;
    let labels = markers.label(CART)?;
    println!(
        "{} rocks, {} shut, {} groups",
        labels.rocks(),
        labels.shut(),
        labels.groups()
    );

    // A stone of 30 cm on home's column takes the assurance from a cart of 20 cm ground clearance,
    // and not from one of 30 cm; cleared, it gives it back.
    let (home, place) = (Place::new(0, 0), Place::new(4, 3));
    markers.enter(3, Place::new(0, 2), 30)?;
    let assured = |cart| markers.assured(cart, home, place);
    println!("assured: {}", if assured(CART)? { "yes" } else { "no" });
    let higher = assured(Cart::new(30))?;
    println!("for a higher cart: {}", if higher { "yes" } else { "no" });
    markers.clear(3)?;

    // The first of the hops, the east-west one where there are two, until the answer is "there".
    let mut next = Some(place);
    while let Some(here) = next {
        println!("{here}");
        next = markers.hop(CART, home, here)?.first();
    }

    let mut chooser = Chooser(0);
    let drive = markers.drive(CART, home, place, &mut chooser)?;
    for number in drive.numbers() {
        print!("{number} ");
    }
    println!("then state {:08x}", chooser.0);
    Ok(())
}

fn main() {
    if let Err(refusal) = journey() {
        println!("{refusal}");
        std::process::exit(1);
    }
}
