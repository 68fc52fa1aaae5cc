//! The labelling program's output.
use crate::asking::Labelled;
use crate::files::{fitting, markers_of, picture};
use crate::labels::{groups, ROCK, SHUT};
use crate::map::Crossing;
use crate::markers::MOST;

/// "Programs ask with clearance 0" (Req 08).
pub const CLEARANCE: u16 = 0;

/// A program takes at most so many input bytes.
pub const LONGEST: usize = 65_536;

/// The whole output for an input.
pub fn label_text(input: &[u8]) -> String {
    if input.len() > LONGEST {
        return "refused long\n".to_string();
    }
    let picture = match picture(input).and_then(|p| fitting(p, MOST)) {
        Ok(picture) => picture,
        Err(refusal) => return format!("refused {refusal}\n"),
    };
    let map = picture.map;
    let on = Labelled::new(map, CLEARANCE, &markers_of(&picture.rocks));
    let shut = on.closed.len() - on.rocks.len();
    let groups = groups(map, &on.closed).len();
    let mut text = format!(
        "{} {} {} {shut} {groups}\n",
        map.width,
        map.height,
        on.rocks.len()
    );
    let sheet = on.sheet();
    for y in (0..map.height).rev() {
        for x in 0..map.width {
            text.push(match sheet[map.number(Crossing::new(x, y))] {
                ROCK => '#',
                SHUT => 'o',
                _ => '.',
            });
        }
        text.push('\n');
    }
    text
}
