//! What the pictures of docs/ are drawn with: rectangles, text and arrows.

use std::fmt::Write;

pub const LEFT: &str = "text-anchor=\"start\"";
pub const BOLD: &str = "font-weight=\"bold\"";
pub const MIDDLE: &str = "text-anchor=\"middle\"";
pub const MIDDLE_BOLD: &str = "text-anchor=\"middle\" font-weight=\"bold\"";
pub const MIDDLE_SMALL: &str = "text-anchor=\"middle\" font-size=\"11\"";

pub struct Drawing(String);

impl Drawing {
    /// An empty white page.
    pub fn new(title: &str, wide: i32, high: i32) -> Drawing {
        Drawing(format!(
            "<svg xmlns=\"http://www.w3.org/2000/svg\" viewBox=\"0 0 {wide} {high}\" font-family=\"sans-serif\" font-size=\"14\">\n\
             <title>{title}</title>\n\
             <defs><marker id=\"tip\" viewBox=\"0 0 10 10\" refX=\"9\" refY=\"5\" markerWidth=\"7\" markerHeight=\"7\" orient=\"auto\"><path d=\"M 0 0 L 10 5 L 0 10 z\" fill=\"#446\"/></marker></defs>\n\
             <rect width=\"{wide}\" height=\"{high}\" fill=\"#fff\"/>\n"
        ))
    }

    /// A rectangle, its corners round by this much.
    pub fn rect(&mut self, [x, y, wide, high]: [i32; 4], round: i32, fill: &str) {
        self.line(&format!(
            "<rect x=\"{x}\" y=\"{y}\" width=\"{wide}\" height=\"{high}\" rx=\"{round}\" fill=\"{fill}\" stroke=\"#446\"/>"
        ));
    }

    /// A rectangle with words in its middle.
    pub fn boxed(&mut self, [x, y, wide, high]: [i32; 4], round: i32, fill: &str, words: &str) {
        self.rect([x, y, wide, high], round, fill);
        self.text(x + wide / 2, y + high / 2 + 5, MIDDLE, words);
    }

    /// Words at a point; the style is the element's other attributes.
    pub fn text(&mut self, x: i32, y: i32, style: &str, words: &str) {
        let words = words.replace('&', "&amp;").replace('<', "&lt;");
        self.line(&format!("<text x=\"{x}\" y=\"{y}\" {style}>{words}</text>"));
    }

    /// An arrow along a path.
    pub fn arrow(&mut self, way: &str) {
        self.line(&format!(
            "<path d=\"{way}\" fill=\"none\" stroke=\"#446\" marker-end=\"url(#tip)\"/>"
        ));
    }

    fn line(&mut self, element: &str) {
        writeln!(self.0, "{element}").expect("a string grows");
    }

    pub fn end(self) -> String {
        self.0 + "</svg>\n"
    }
}
