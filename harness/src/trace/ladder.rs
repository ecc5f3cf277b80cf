//! A trace as a ladder diagram: for a terminal, and as mscgen's input. The
//! columns are the user, the controller and the host.

use super::words::{message, request, told};
use super::{on_wire, Said, Step};
use crate::exchange::Event;

#[derive(Clone, Copy, Debug, PartialEq, Eq)]
enum Side {
    User,
    Host,
}

/// What goes from the controller to a side, or comes from there.
struct Arrow {
    side: Side,
    comes: bool,
    words: String,
}

/// What an event says, and then what its answer says.
fn arrows(step: &Step) -> Vec<Arrow> {
    let mut arrows = Vec::new();
    let mut push = |side, comes, words| arrows.push(Arrow { side, comes, words });
    if let Event::Message(_, octets) = &step.event {
        push(Side::User, true, message(octets));
    }
    if let Some(words) = request(&step.event) {
        push(Side::Host, true, words);
    }
    match &step.answer {
        Said::Answer { reply, .. } if !reply.is_empty() && on_wire(&step.event) => {
            push(Side::User, false, message(reply));
        }
        _ => {}
    }
    for words in told(&step.event, &step.answer) {
        push(Side::Host, false, words);
    }
    arrows
}

fn seconds(time: u64) -> String {
    format!("{}.{:03}", time / 1_000, time % 1_000)
}

/// Lines for a terminal; the time stands where it changes.
pub fn text(steps: &[Step]) -> String {
    let drawn: Vec<(u64, Vec<Arrow>)> =
        steps.iter().map(|step| (step.time, arrows(step))).collect();
    let width = |side: Side| {
        let all = drawn.iter().flat_map(|(_, arrows)| arrows);
        let here = all.filter(|arrow| arrow.side == side);
        here.map(|arrow| arrow.words.chars().count()).max()
    };
    let left = width(Side::User).unwrap_or(0) + 7;
    let right = width(Side::Host).unwrap_or(0) + 7;
    let mut text = format!(
        "{:>12}  {:<left$} {:<right$} host\n",
        "seconds", "user", "controller"
    );
    let mut last = None;
    for (time, arrows) in &drawn {
        for arrow in arrows {
            let shown = if last == Some(*time) {
                String::new()
            } else {
                seconds(*time)
            };
            last = Some(*time);
            let line = match arrow.side {
                Side::User => format!("{}|{:right$}|", drawn_arrow(arrow, left), ""),
                Side::Host => format!("{:left$}|{}|", "", drawn_arrow(arrow, right)),
            };
            text += &format!("{shown:>12}  |{line}\n");
        }
    }
    text
}

/// An arrow between two bars that stand so far apart. The user is left of the
/// controller, the host right of it.
fn drawn_arrow(arrow: &Arrow, width: usize) -> String {
    let words = &arrow.words;
    let shaft = "-".repeat(width - words.chars().count() - 5);
    if (arrow.side == Side::User) == arrow.comes {
        format!("- {words} {shaft}->")
    } else {
        format!("<- {words} {shaft}-")
    }
}

/// Input of mscgen: thick arrows for the wire, dashed ones for the host.
pub fn msc(steps: &[Step]) -> String {
    let mut text = "msc {\n  hscale = \"1.2\", wordwraparcs = \"true\";\n".to_string();
    text += "  user [label=\"user\"], us [label=\"controller\"], host [label=\"host\"];\n";
    let mut last = None;
    for step in steps {
        if last != Some(step.time) {
            text += &format!("  --- [label=\"{} s\"];\n", seconds(step.time));
        }
        last = Some(step.time);
        for arrow in arrows(step) {
            text += &format!("  {} [label=\"{}\"];\n", ends(&arrow), arrow.words);
        }
    }
    text + "}\n"
}

fn ends(arrow: &Arrow) -> &'static str {
    match (arrow.side, arrow.comes) {
        (Side::User, true) => "user => us",
        (Side::User, false) => "us => user",
        (Side::Host, true) => "host >> us",
        (Side::Host, false) => "us >> host",
    }
}
