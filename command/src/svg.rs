//! Shapes and texts of an SVG picture.

pub const RUNS: &str = "#7fb2e5";
/// The first tick of a locked stretch, and the others.
pub const STARTS: &str = "#5c1a00";
pub const LOCKED: &str = "#c4520f";
pub const WAITS: &str = "#e8e8e8";
pub const IDLE: &str = "#9aa58c";
pub const INK: &str = "#222";
pub const MISS: &str = "#d4002a";
pub const GRID: &str = "#ddd";
pub const STROKE: &str = "#666";

/// A picture in the making.
pub struct Svg(String);

/// Where a text stands to its point.
#[derive(Clone, Copy)]
pub enum Anchor {
    Start,
    Middle,
    End,
}

impl Svg {
    pub fn new() -> Self {
        Svg(String::new())
    }

    pub fn rect(&mut self, x: f64, y: f64, width: f64, height: f64) {
        let (x, y, width, height) = (px(x), px(y), px(width), px(height));
        self.0 += &format!("<rect x=\"{x}\" y=\"{y}\" width=\"{width}\" height=\"{height}\"/>\n");
    }

    pub fn path(&mut self, path: &str) {
        if !path.is_empty() {
            self.0 += &format!("<path d=\"{path}\"/>\n");
        }
    }

    pub fn text(&mut self, x: f64, y: f64, anchor: Anchor, text: &str) {
        let anchor = match anchor {
            Anchor::Start => "",
            Anchor::Middle => " text-anchor=\"middle\"",
            Anchor::End => " text-anchor=\"end\"",
        };
        self.0 += &format!("<text x=\"{}\" y=\"{}\"{anchor}>{}</text>\n", px(x), px(y), escaped(text));
    }

    /// What is drawn inside has these attributes; without content there is no group.
    pub fn group(&mut self, attributes: &str, draw: impl FnOnce(&mut Svg)) {
        let mut inside = Svg::new();
        draw(&mut inside);
        if !inside.0.is_empty() {
            self.0 += &format!("<g {attributes}>\n{}</g>\n", inside.0);
        }
    }

    /// The whole file, on white, with a title that readers of the screen say.
    pub fn close(self, width: f64, height: f64, title: &str) -> String {
        let (width, height, title) = (px(width.ceil()), px(height.ceil()), escaped(title));
        let size = format!("width=\"{width}\" height=\"{height}\" viewBox=\"0 0 {width} {height}\"");
        let fonts = "font-family=\"sans-serif\" font-size=\"12\" fill=\"#222\"";
        let head = format!("<svg xmlns=\"http://www.w3.org/2000/svg\" {size} role=\"img\" {fonts}>\n<title>{title}</title>\n");
        format!("{head}<rect width=\"{width}\" height=\"{height}\" fill=\"#fff\"/>\n{}</svg>\n", self.0)
    }
}

/// A shaft and a head at its end.
pub fn arrow(x: f64, from: f64, to: f64) -> String {
    let back = px(if to < from { to + 4.0 } else { to - 4.0 });
    let (left, right, x, from, to) = (px(x - 3.0), px(x + 3.0), px(x), px(from), px(to));
    format!("M{x} {from}V{to}M{left} {back}L{x} {to}L{right} {back}")
}

/// A cross in a square of twelve pixels.
pub fn cross(left: f64, top: f64) -> String {
    format!("M{} {}l12 12m0 -12l-12 12", px(left), px(top))
}

/// A number of pixels with two decimals at most.
pub fn px(number: f64) -> String {
    let text = format!("{number:.2}");
    let text = text.trim_end_matches('0').trim_end_matches('.');
    if text == "-0" {
        "0".to_string()
    } else {
        text.to_string()
    }
}

/// The text without what XML reads otherwise; what does not print was escaped before.
pub fn escaped(text: &str) -> String {
    text.replace('&', "&amp;").replace('<', "&lt;").replace('>', "&gt;").replace('"', "&quot;")
}

#[cfg(test)]
mod tests {
    use super::*;

    #[test]
    fn numbers_are_short() {
        assert_eq!([1.0, 0.5, 1.256, -0.001, 1200.0].map(px), ["1", "0.5", "1.26", "0", "1200"]);
    }

    #[test]
    fn names_cannot_fake_a_shape() {
        assert_eq!(escaped("a<b & \"c\">"), "a&lt;b &amp; &quot;c&quot;&gt;");
    }
}
