//! Writes a picture as text.

use super::kinds::KINDS;
use rights::{Arrow, Picture, Sign};

/// The text of a picture: its three counts as a comment, then a line for each row, in order. Boxes
/// are called `box0`, `box1` and so on; modes are numbers.
pub fn write(picture: &Picture) -> String {
    let mut lines = vec![format!(
        "# boxes {} containments {} arrows {}\n",
        picture.boxes.len(),
        picture.containments.len(),
        picture.arrows.len()
    )];
    let boxes = picture.boxes.iter().enumerate();
    lines.extend(boxes.map(|(number, kind)| format!("{} box{number}\n", KINDS[*kind as usize])));
    let containments = picture.containments.iter();
    lines.extend(containments.map(|(outer, inner)| format!("box{inner} inside box{outer}\n")));
    lines.extend(picture.arrows.iter().map(arrow));
    lines.concat()
}

fn arrow(arrow: &Arrow) -> String {
    let Arrow { tail, head, .. } = arrow;
    let mode = arrow.mode.number();
    let sign = match arrow.sign {
        Sign::Negative => "negative",
        Sign::Positive => "positive",
    };
    format!("arrow box{tail} box{head} {mode} {sign}\n")
}
