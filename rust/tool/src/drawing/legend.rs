//! What stands below a wall: what its colours, lines and dots mean, and how many there are of each.

use super::dots::{Dots, Style};
use super::outlines::{self, Kind};
use super::{number, on_level, Changes, Frame, Options};
use super::{BORDERS, CORNER_LINE, CORNER_LINE_WIDTH, FILLS, INKS, MARGIN};
use crate::words;
use wallmirror::Mesh;

const LINE_HEIGHT: f64 = 22.0;
const FONT_SIZE: f64 = 12.0;
/// From the left of an entry to its text, and from a dot's middle to its own.
const SAMPLE_WIDTH: f64 = 28.0;
const DOT_WIDTH: f64 = 14.0;
/// Where the dots of a level's entry stand.
const ACTIVE: f64 = 172.0;
const DEACTIVATED: f64 = 340.0;
/// How wide entries are.
const LEVEL_WIDTH: f64 = 160.0;
const LEVEL_WITH_DOTS_WIDTH: f64 = 470.0;
const NOTE_WIDTH: f64 = 200.0;
const REACH_WIDTH: f64 = 450.0;
const ELLIPSIS_WIDTH: f64 = 17.0;

/// What the picture needs for its legend and its heading.
pub fn least_width(options: &Options) -> f64 {
    if options.functions {
        LEVEL_WITH_DOTS_WIDTH
    } else if options.reach.is_some() {
        REACH_WIDTH
    } else {
        2.0 * LEVEL_WIDTH
    }
}

/// The legend and its height, with the space above it.
pub fn legend(frame: &Frame, mesh: &Mesh, options: &Options, dots: Option<&Dots>) -> (String, f64) {
    let width = if dots.is_some() { LEVEL_WITH_DOTS_WIDTH } else { LEVEL_WIDTH };
    let entry = |level| level_entry(frame, mesh, level) + &dot_entry(mesh, dots, level);
    let levels: Vec<String> = (0..frame.plan.levels).map(entry).collect();
    let (levels, below) = table(frame, &levels, width, frame.bottom() + 14.0);
    let (notes, below) = table(frame, &notes(frame, options), NOTE_WIDTH, below);
    let (sentences, below) = table(frame, &sentences(options, dots), frame.width, below);
    let legend = format!(
        "<g id=\"legend\" font-size=\"{FONT_SIZE}\" fill=\"{}\">\n{levels}{notes}{sentences}</g>\n",
        INKS[0]
    );
    (legend, below - frame.bottom())
}

/// Entries in columns, as many as there is room for, and where the next line would be.
fn table(frame: &Frame, entries: &[String], width: f64, top: f64) -> (String, f64) {
    let columns = ((frame.width / width) as usize).max(1);
    let lines = entries.len().div_ceil(columns);
    let mut out = String::new();
    for (i, entry) in entries.iter().enumerate() {
        let x = number(MARGIN + (i / lines) as f64 * width);
        let y = number(top + (i % lines) as f64 * LINE_HEIGHT);
        out += &format!("<g transform=\"translate({x} {y})\">{entry}</g>\n");
    }
    (out, top + lines as f64 * LINE_HEIGHT)
}

fn text(x: f64, text: &str) -> String {
    format!("<text x=\"{}\" y=\"15\">{text}</text>", number(x))
}

fn level_entry(frame: &Frame, mesh: &Mesh, level: u32) -> String {
    let (fill, border) = (FILLS[level as usize], on_level(BORDERS, level));
    let swatch = format!(
        "<rect x=\"0.5\" y=\"3.5\" width=\"18\" height=\"14\" fill=\"{fill}\" stroke=\"{border}\"/>"
    );
    let cells = words::count(frame.active(mesh, level).count(), "cell");
    swatch + &text(SAMPLE_WIDTH, &format!("level {level}: {cells}"))
}

/// What a level's entry says of its functions, if they are drawn.
fn dot_entry(mesh: &Mesh, dots: Option<&Dots>, level: u32) -> String {
    let Some(dots) = dots else { return String::new() };
    let active = format!("{} active", words::count(dots.count(mesh, level, 1), "function"));
    let deactivated = format!("{} deactivated", dots.count(mesh, level, 2));
    let sample = |x: f64, byte: u8| {
        // Very small dots are shown somewhat larger, and large ones smaller than the line is high.
        let radius = dots.radius(level).clamp(2.0, 8.5);
        let Style { radius, attributes } = Style::of(level, radius, byte);
        format!("<circle cx=\"{x}\" cy=\"10.5\" r=\"{}\" {attributes}/>", number(radius))
    };
    sample(ACTIVE, 1)
        + &text(ACTIVE + DOT_WIDTH, &active)
        + &sample(DEACTIVATED, 2)
        + &text(DEACTIVATED + DOT_WIDTH, &deactivated)
}

/// What the lines in the picture mean, of those that are drawn.
fn notes(frame: &Frame, options: &Options) -> Vec<String> {
    let mut notes = vec![];
    if let Some(Changes { split, joined }) = &options.changed {
        let drawn = [(Kind::Split, "split", split), (Kind::Joined, "joined", joined)];
        let drawn = drawn.iter().filter(|(_, _, cells)| !cells.is_empty());
        notes.extend(drawn.map(|(kind, word, cells)| {
            let cells = words::count(cells.len(), "cell");
            outline_entry(*kind, &format!("{cells} just {word}"))
        }));
    }
    if let Some(reach) = &options.reach {
        let kinds = reach.windows.iter().map(|window| Kind::Reach(window.level));
        notes.extend(kinds.zip(reach.notes()).map(|(kind, note)| outline_entry(kind, &note)));
    }
    if frame.has_corners() {
        let line = format!(
            "<line x1=\"0\" y1=\"10.5\" x2=\"19\" y2=\"10.5\" stroke=\"{CORNER_LINE}\" \
             stroke-width=\"{CORNER_LINE_WIDTH}\"/>"
        );
        notes.push(line + &text(SAMPLE_WIDTH, "corner"));
    }
    notes
}

fn outline_entry(kind: Kind, said: &str) -> String {
    let style = outlines::style(kind, 2.5);
    format!("<rect x=\"1\" y=\"4\" width=\"17\" height=\"13\" {style}/>")
        + &text(SAMPLE_WIDTH, said)
}

/// What is said below, each on a line of its own.
fn sentences(options: &Options, dots: Option<&Dots>) -> Vec<String> {
    let nothing = |changes: &Changes| changes.split.is_empty() && changes.joined.is_empty();
    let reach = options.reach.iter().flat_map(|reach| reach.sentences());
    let said = [
        (
            options.changed.as_ref().is_some_and(nothing),
            "The last change split and joined nothing.",
        ),
        (dots.is_some(), "A dot is in the middle of what its function covers."),
        (
            dots.is_some_and(Dots::any_side_by_side),
            "Functions that cover the same cells stand side by side.",
        ),
    ];
    let said = said.iter().filter(|(holds, _)| *holds).map(|(_, sentence)| sentence.to_string());
    reach.chain(said).map(|sentence| text(0.0, &sentence)).collect()
}

/// As much of a name as has room in the heading.
pub fn cut(name: &str, width: f64) -> String {
    let mut room = width - ELLIPSIS_WIDTH;
    let fits = |&character: &char| {
        room -= width_of(character);
        room >= 0.0
    };
    let short: String = name.chars().take_while(fits).collect();
    if short.len() == name.len() {
        short
    } else {
        short + "…"
    }
}

/// About how wide a character of the heading is, in the widest of the usual fonts.
fn width_of(character: char) -> f64 {
    match character {
        'W' | 'M' | 'm' | 'w' | '@' | '%' => 17.0,
        'A'..='Z' | '&' | '#' | '+' | '<' | '=' | '>' | '^' | '~' => 13.0,
        _ if character.is_ascii() => 11.0,
        _ => 17.0,
    }
}
