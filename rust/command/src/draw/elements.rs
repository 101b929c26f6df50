//! The SVG elements of the picture. Attributes stand in the elements, not in a style sheet, so that a
//! page may hold several pictures.

use std::fmt::Write;

/// Pixels.
pub const FONT: f64 = 12.0;
pub const SMALL: f64 = 10.5;
/// A character of the fixed-width fonts takes at most this part of their size.
pub const WIDTH: f64 = 0.63;

pub fn width(text: &str, size: f64) -> f64 {
    text.chars().count() as f64 * size * WIDTH
}

#[derive(Default)]
pub struct Elements {
    pub markup: String,
}

impl Elements {
    /// `style` is further attributes, each with a blank before it.
    pub fn text(&mut self, x: f64, y: f64, style: &str, content: &str) {
        let content = escaped(content);
        self.element(format_args!(
            r#"<text x="{x:.1}" y="{y:.1}"{style}>{content}</text>"#
        ));
    }

    pub fn line(&mut self, from: (f64, f64), to: (f64, f64), style: &str) {
        let ((x1, y1), (x2, y2)) = (from, to);
        self.element(format_args!(
            r#"<line x1="{x1:.1}" y1="{y1:.1}" x2="{x2:.1}" y2="{y2:.1}"{style}/>"#
        ));
    }

    pub fn rectangle(&mut self, from: (f64, f64), to: (f64, f64), style: &str) {
        let ((x, y), (width, height)) = (from, (to.0 - from.0, to.1 - from.1));
        self.element(format_args!(
            r#"<rect x="{x:.1}" y="{y:.1}" width="{width:.1}" height="{height:.1}"{style}/>"#
        ));
    }

    pub fn path(&mut self, points: &[(f64, f64)], style: &str) {
        let points: Vec<String> = points
            .iter()
            .map(|(x, y)| format!("{x:.1} {y:.1}"))
            .collect();
        let points = points.join(" L ");
        self.element(format_args!(r#"<path d="M {points}"{style}/>"#));
    }

    /// A thick line with a filled head: something is written.
    pub fn write_arrow(&mut self, from: f64, to: f64, y: f64) {
        self.line(
            (from, y),
            (to - 8.0, y),
            r#" stroke="black" stroke-width="2.2""#,
        );
        let head = [(to, y), (to - 10.0, y - 5.0), (to - 10.0, y + 5.0), (to, y)];
        self.path(&head, r#" fill="black""#);
    }

    /// A thin line with an open head, to the left: something is read.
    pub fn read_arrow(&mut self, from: f64, to: f64, y: f64) {
        let style = r##" fill="none" stroke="#333" stroke-width="1""##;
        self.line((from, y), (to, y), style);
        self.path(&[(to + 6.0, y - 4.0), (to, y), (to + 6.0, y + 4.0)], style);
    }

    /// A store that a load misses.
    pub fn diamond(&mut self, x: f64, y: f64) {
        let corners = [
            (x - 6.0, y),
            (x, y - 6.0),
            (x + 6.0, y),
            (x, y + 6.0),
            (x - 6.0, y),
        ];
        let style = r#" fill="white" stroke="black" stroke-width="1.6""#;
        self.path(&corners, style);
    }

    fn element(&mut self, element: std::fmt::Arguments) {
        writeln!(self.markup, "{element}").expect("a string takes it");
    }
}

pub fn escaped(text: &str) -> String {
    text.replace('&', "&amp;")
        .replace('<', "&lt;")
        .replace('>', "&gt;")
}
