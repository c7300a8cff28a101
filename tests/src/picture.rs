//! docs/places.svg: the places, the answers given at each, and the ways from one to the next, read off the definitions of the step table.

use crate::drawing::{Drawing, MIDDLE, MIDDLE_BOLD};

/// A row of the table: its place, what it answers, and the places that it goes to.
pub struct Row {
    pub place: String,
    pub answers: Vec<&'static str>,
    pub to: Vec<String>,
}

const ANSWERS: [(&str, &str); 18] = [
    ("Drew", "drew"),
    ("Looked", "looked"),
    ("SawHead", "saw Head"),
    ("Landed", "landed"),
    ("Took", "took"),
    ("Flagged", "flagged"),
    ("Passed", "passed"),
    ("Missed", "missed"),
    ("Asked", "asked"),
    ("Ok", "OK"),
    ("Closed", "CLOSED"),
    ("Item", "ITEM"),
    ("Empty", "EMPTY"),
    ("SetClosed", "set closed"),
    ("SawTail", "saw Tail"),
    ("Lifted", "lifted"),
    ("Copied", "copied"),
    ("Waiting", "waiting"),
];

fn words(text: &str) -> impl Iterator<Item = &str> {
    text.split(|c: char| !c.is_ascii_alphanumeric())
}

fn is_place(word: &str) -> bool {
    word.len() > 1 && word.starts_with(['P', 'T']) && word[1..].bytes().all(|b| b.is_ascii_digit())
}

/// The rows, from the text of the definitions: each is a definition `row_x` and its body up to an empty line.
pub fn rows(table: &str) -> Vec<Row> {
    let mut rows = Vec::new();
    for part in table.split("\n\n") {
        let Some(body) =
            part.lines().position(|l| l.starts_with("row_") && l.contains(" g i t m ="))
        else {
            continue;
        };
        let body: String = part.lines().skip(body).collect::<Vec<_>>().join("\n");
        let name = body.strip_prefix("row_").and_then(|rest| rest.split(' ').next());
        let Some(place) = name.map(str::to_uppercase).filter(|w| is_place(w)) else {
            continue;
        };
        let waits = body.contains("row_wait");
        let says = |name: &str| words(&body).any(|w| w == name) || (waits && name == "Waiting");
        let answers =
            ANSWERS.iter().filter(|(name, _)| says(name)).map(|(_, text)| *text).collect();
        let mut to: Vec<String> = Vec::new();
        for word in words(&body).filter(|w| is_place(w)) {
            if !to.iter().any(|t| t == word) {
                to.push(word.to_string());
            }
        }
        if waits {
            to = vec!["idle".to_string()];
        }
        rows.push(Row { place, answers, to });
    }
    rows
}

const WIDE: i32 = 190;
const HIGH: i32 = 46;

/// The middle of a place's box: puts stand left, takes right, idle below.
fn middle(place: &str) -> (i32, i32) {
    if place == "idle" {
        return (480, 60 + 10 * 78 + 20);
    }
    let row: i32 = place[1..].parse().expect("a place's number");
    (if place.starts_with('P') { 250 } else { 710 }, 60 + (row - 1) * 78)
}

/// The way from one place to another: straight to the next below, else around a side.
fn way(from: &str, to: &str) -> String {
    let ((x, y), (u, v)) = (middle(from), middle(to));
    if to == "idle" {
        let side = if x < u { 1 } else { -1 };
        return format!(
            "M {} {} C {} {}, {} {}, {} {}",
            x + side * WIDE / 2,
            y,
            u - side * 40,
            y,
            u,
            y + 40,
            u - side * 10,
            v - HIGH / 2
        );
    }
    let down = v - y;
    if down == 78 {
        return format!("M {x} {} L {u} {}", y + HIGH / 2, v - HIGH / 2);
    }
    // down on the right, up on the left, further out the further it goes
    let side = if down > 0 { 1 } else { -1 };
    let out = 26 + 9 * down.abs() / 78;
    let (edge, far) = (x + side * WIDE / 2, x + side * (WIDE / 2 + out));
    format!(
        "M {edge} {} C {far} {}, {far} {}, {edge} {}",
        y + 8 * side,
        y + 12 * side,
        v - 12 * side,
        v - 8 * side
    )
}

pub fn svg(table: &str) -> String {
    let mut drawing = Drawing::new("The places of a put and of a take", 960, 910);
    drawing.text(250, 22, MIDDLE, "a put");
    drawing.text(710, 22, MIDDLE, "a take");
    let rows = rows(table);
    for row in &rows {
        for to in &row.to {
            drawing.arrow(&way(&row.place, to));
        }
    }
    for row in &rows {
        let (x, y) = middle(&row.place);
        let fill = if row.place.starts_with('P') { "#fdf3e0" } else { "#e6f1f7" };
        drawing.rect([x - WIDE / 2, y - HIGH / 2, WIDE, HIGH], 8, fill);
        drawing.text(x, y - 4, MIDDLE_BOLD, &row.place);
        drawing.text(x, y + 14, MIDDLE, &row.answers.join(", "));
    }
    let (x, y) = middle("idle");
    drawing.boxed([x - 45, y - HIGH / 2, 90, HIGH], 23, "#eee", "idle");
    drawing.end()
}
