//! The few shapes of a picture. The colours differ in lightness, so that they stay apart in grey.

use std::fmt::Display;

pub const DARK: &str = "#1f3a5f";
pub const LIGHT: &str = "#f3cf86";
pub const GREY: &str = "#c4c4c4";
pub const PAPER: &str = "#ffffff";
pub const SHADE: &str = "#f1f1f1";
pub const INK: &str = "#222222";

/// What one character of a text of size 1 needs, at most.
const CHARACTER: f64 = 0.64;

/// A text is set no larger than fits its room.
pub fn fitting(said: &str, size: f64, room: f64) -> f64 {
    size.min(room / (CHARACTER * said.chars().count().max(1) as f64))
}

#[derive(Clone, Copy)]
pub enum Side {
    Left,
    Middle,
}

/// A text and the size it is set in.
#[derive(Clone, Copy)]
pub struct Text<'a> {
    pub said: &'a str,
    pub size: f64,
    pub colour: &'a str,
}

/// A place and an extent.
#[derive(Clone, Copy)]
pub struct Frame {
    pub x: f64,
    pub y: f64,
    pub width: f64,
    pub height: f64,
}

/// The picture as far as it is drawn.
#[derive(Default)]
pub struct Picture(String);

impl Picture {
    pub fn open(&mut self, class: &str) {
        self.line(format_args!("<g class=\"{class}\">"));
    }

    pub fn close(&mut self) {
        self.line("</g>");
    }

    pub fn rectangle(&mut self, at: Frame, fill: &str, stroke: &str) {
        let Frame {
            x,
            y,
            width,
            height,
        } = at;
        self.line(format_args!(
            "<rect x=\"{x:.1}\" y=\"{y:.1}\" width=\"{width:.1}\" height=\"{height:.1}\" \
             fill=\"{fill}\" stroke=\"{stroke}\"/>"
        ));
    }

    pub fn circle(&mut self, x: f64, y: f64, radius: f64, fill: &str) {
        self.line(format_args!(
            "<circle cx=\"{x:.1}\" cy=\"{y:.1}\" r=\"{radius:.1}\" fill=\"{fill}\" stroke=\"{INK}\"/>"
        ));
    }

    /// A thin line; one that is cut short is dashed.
    pub fn stroke(&mut self, (x, y): (f64, f64), (to_x, to_y): (f64, f64), is_cut: bool) {
        let dashes = if is_cut {
            " stroke-dasharray=\"3 3\""
        } else {
            ""
        };
        self.line(format_args!(
            "<line x1=\"{x:.1}\" y1=\"{y:.1}\" x2=\"{to_x:.1}\" y2=\"{to_y:.1}\" \
             stroke=\"{INK}\" stroke-width=\"1\"{dashes}/>"
        ));
    }

    /// A text whose base line is at `y`.
    pub fn text(&mut self, x: f64, y: f64, text: Text, side: Side) {
        let Text { said, size, colour } = text;
        let anchor = match side {
            Side::Left => "start",
            Side::Middle => "middle",
        };
        self.line(format_args!(
            "<text x=\"{x:.1}\" y=\"{y:.1}\" font-size=\"{size:.1}\" \
             fill=\"{colour}\" text-anchor=\"{anchor}\">{said}</text>"
        ));
    }

    fn line(&mut self, said: impl Display) {
        self.0 += &format!("{said}\n");
    }

    /// The whole file of a picture of this width and height.
    pub fn finished(self, width: f64, height: f64) -> String {
        let head = format!(
            "<svg xmlns=\"http://www.w3.org/2000/svg\" width=\"{width:.0}\" height=\"{height:.0}\" \
             viewBox=\"0 0 {width:.0} {height:.0}\" \
             font-family=\"Helvetica, Arial, sans-serif\">\n"
        );
        head + &self.0 + "</svg>\n"
    }
}
