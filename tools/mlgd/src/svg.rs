//! A small writer of SVG pictures: shapes with a class each, texts, tooltips.
//!
//! Colours and fonts stand in the style that a picture is finished with. A `<title>` inside a
//! shape is what a browser shows when the mouse rests on it.

/// A place: to the right, and down.
pub type At = (f64, f64);

/// A picture in the making.
pub struct Picture {
    size: At,
    body: String,
}

impl Picture {
    /// An empty picture of this width and height.
    pub fn new(width: f64, height: f64) -> Picture {
        Picture {
            size: (width, height),
            body: String::new(),
        }
    }

    /// A path by its data, with a tooltip unless that is empty.
    pub fn path(&mut self, class: &str, data: &str, tooltip: &str) {
        let shape = format!("path{} d=\"{data}\"", attribute("class", class));
        self.shape(&shape, tooltip);
    }

    /// A rectangle by its upper left corner and size.
    pub fn rectangle(&mut self, class: &str, (x, y): At, (width, height): At) {
        let class = attribute("class", class);
        let [x, y, width, height] = [x, y, width, height].map(short);
        let shape =
            format!("rect{class} x=\"{x}\" y=\"{y}\" width=\"{width}\" height=\"{height}\"");
        self.shape(&shape, "");
    }

    /// A straight line.
    pub fn line(&mut self, class: &str, from: At, to: At) {
        let [x, y, right, down] = [from.0, from.1, to.0 - from.0, to.1 - from.1].map(short);
        self.path(class, &format!("M{x} {y}l{right} {down}"), "");
    }

    /// A text. Where it begins, or its middle or end, is for the class to say.
    pub fn text(&mut self, class: &str, (x, y): At, content: &str) {
        let class = attribute("class", class);
        let (x, y, content) = (short(x), short(y), escaped(content));
        self.push(&format!(
            "<text{class} x=\"{x}\" y=\"{y}\">{content}</text>\n"
        ));
    }

    /// A text that runs upwards, its middle at this place.
    pub fn upward_text(&mut self, class: &str, (x, y): At, content: &str) {
        let class = attribute("class", class);
        let (x, y, content) = (short(x), short(y), escaped(content));
        self.push(&format!(
            "<text{class} transform=\"translate({x} {y}) rotate(-90)\">{content}</text>\n"
        ));
    }

    /// What `draw` adds becomes a group of this class, moved to `at` and magnified.
    pub fn group(&mut self, class: &str, at: At, scale: f64, draw: impl FnOnce(&mut Picture)) {
        let class = attribute("class", class);
        let (x, y, scale) = (short(at.0), short(at.1), short(scale));
        self.push(&format!(
            "<g{class} transform=\"translate({x} {y}) scale({scale})\">\n"
        ));
        draw(self);
        self.push("</g>\n");
    }

    /// What `draw` adds becomes a group of this class.
    pub fn classed(&mut self, class: &str, draw: impl FnOnce(&mut Picture)) {
        self.push(&format!("<g{}>\n", attribute("class", class)));
        draw(self);
        self.push("</g>\n");
    }

    /// The file: the shapes on a white ground, with the picture's name and its style.
    pub fn finish(self, name: &str, style: &str) -> String {
        let (width, height) = (short(self.size.0), short(self.size.1));
        format!(
            "<svg xmlns=\"http://www.w3.org/2000/svg\" width=\"{width}\" height=\"{height}\" \
             viewBox=\"0 0 {width} {height}\">\n\
             <title>{}</title>\n<style>\n{style}</style>\n\
             <rect width=\"{width}\" height=\"{height}\" fill=\"#fff\"/>\n{}</svg>\n",
            escaped(name),
            self.body
        )
    }

    fn shape(&mut self, shape: &str, tooltip: &str) {
        if tooltip.is_empty() {
            self.push(&format!("<{shape}/>\n"));
            return;
        }
        let name = shape.split(' ').next().unwrap_or_default();
        let tooltip = escaped(tooltip);
        self.push(&format!("<{shape}><title>{tooltip}</title></{name}>\n"));
    }

    fn push(&mut self, text: &str) {
        self.body.push_str(text);
    }
}

fn attribute(name: &str, value: &str) -> String {
    if value.is_empty() {
        String::new()
    } else {
        format!(" {name}=\"{}\"", escaped(value))
    }
}

/// A text with the characters that mean something in SVG written otherwise. Control characters,
/// which no SVG may hold, become blanks.
pub fn escaped(text: &str) -> String {
    let mut out = String::with_capacity(text.len());
    for character in text.chars() {
        match character {
            '&' => out.push_str("&amp;"),
            '<' => out.push_str("&lt;"),
            '>' => out.push_str("&gt;"),
            '"' => out.push_str("&quot;"),
            _ if character.is_control() => out.push(' '),
            _ => out.push(character),
        }
    }
    out
}

/// A coordinate with at most two decimals, and no more than it needs.
pub fn short(number: f64) -> String {
    let mut text = format!("{number:.2}");
    text.truncate(text.trim_end_matches('0').trim_end_matches('.').len());
    match text.as_str() {
        "-0" => "0".into(),
        _ => text,
    }
}

/// Says what is wrong with a picture's tags: every one that opens closes in its turn.
#[cfg(test)]
pub(crate) fn tags_balance(svg: &str) -> Result<usize, String> {
    let (mut open, mut count) = (Vec::new(), 0);
    for piece in svg.split('<').skip(1) {
        let (tag, text) = piece.split_once('>').ok_or(format!("<{piece}: no end"))?;
        if text.contains('>') || tag.matches('"').count() % 2 == 1 {
            return Err(format!("<{piece}: a stray character"));
        }
        count += 1;
        if let Some(name) = tag.strip_prefix('/') {
            let last = open.pop().unwrap_or_default();
            if last != name {
                return Err(format!("</{name}> closes <{last}>"));
            }
        } else if !tag.ends_with('/') {
            open.push(tag.split(' ').next().unwrap_or_default().to_string());
        }
    }
    match open.pop() {
        Some(name) => Err(format!("<{name}> stays open")),
        None => Ok(count),
    }
}

#[cfg(test)]
mod tests {
    use super::{escaped, short, tags_balance, Picture};

    #[test]
    fn numbers_and_texts() {
        for (number, text) in [
            (0.0, "0"),
            (-0.001, "0"),
            (12.0, "12"),
            (1.5, "1.5"),
            (-2.345, "-2.35"),
            (100.0, "100"),
        ] {
            assert_eq!(short(number), text);
        }
        assert_eq!(
            escaped("a<b & \"c\">\u{1b}"),
            "a&lt;b &amp; &quot;c&quot;&gt; "
        );
    }

    #[test]
    fn a_picture_is_well_formed() {
        let mut picture = Picture::new(10.0, 20.5);
        picture.group("a", (1.0, 2.0), 3.0, |picture| {
            picture.path("", "M0 0h1", "<&>");
            picture.classed("b", |picture| picture.line("c", (0.0, 0.0), (1.0, 1.0)));
        });
        picture.text("t", (0.0, 0.0), "\"x\" < y");
        picture.upward_text("", (0.0, 0.0), "up");
        picture.rectangle("r", (0.0, 0.0), (1.0, 1.0));
        let svg = picture.finish("a & b", "text { fill: #000 }\n");
        assert_eq!(tags_balance(&svg), Ok(21));
        assert!(svg.contains("<path d=\"M0 0h1\"><title>&lt;&amp;&gt;</title></path>"));
        assert!(svg.starts_with("<svg xmlns=") && svg.ends_with("</svg>\n"));
    }

    #[test]
    fn what_is_not_well_formed_is_seen() {
        for bad in [
            "<a>",
            "<a></b>",
            "</a>",
            "<a",
            "<a b=\"c></a>",
            "<a>x > y</a>",
        ] {
            assert!(tags_balance(bad).is_err(), "{bad}");
        }
    }
}
