//! The marks of an SVG.

/// The widths of letters at size 1 in thousandths, from the blank on; those of the first
/// font named below.
const WIDTHS: [u16; 95] = [
    318, 401, 460, 838, 636, 950, 780, 275, 390, 390, 500, 838, 318, 361, 318,
    337, // blank to /
    636, 636, 636, 636, 636, 636, 636, 636, 636, 636, 337, 337, 838, 838, 838, 531, // 0 to ?
    1000, 684, 686, 698, 770, 632, 575, 775, 752, 295, 295, 656, 557, 863, 748, 787, // @ to O
    603, 787, 695, 635, 611, 732, 684, 989, 685, 611, 685, 390, 337, 390, 838, 500, // P to _
    500, 613, 635, 550, 635, 615, 352, 635, 634, 278, 278, 579, 278, 974, 634, 612, // ` to o
    635, 635, 411, 521, 392, 634, 592, 818, 592, 592, 525, 636, 337, 636, 838, // p to ~
];
/// Other signs, bold ones by how much they are wider, and those of one width.
const OTHER_WIDTH: f64 = 0.84;
const BOLD_WIDTH: f64 = 1.12;
const FIXED_WIDTH: f64 = 0.602;
const FONTS: &str = "DejaVu Sans, Verdana, sans-serif";
const FIXED: &str = "DejaVu Sans Mono, Consolas, monospace";

pub struct Svg {
    text: String,
    width: f64,
    /// Where each text stands.
    written: Vec<Place>,
}

/// A text and about what it covers: left, top, right, bottom.
struct Place {
    text: String,
    edges: [f64; 4],
}

/// Where a piece of text is anchored.
#[derive(Clone, Copy, PartialEq)]
pub enum Anchor {
    Start,
    Middle,
    End,
}

/// How a piece of text is written.
#[derive(Clone, Copy)]
pub struct Pen {
    pub size: f64,
    pub colour: &'static str,
    pub anchor: Anchor,
    pub bold: bool,
    pub fixed: bool,
}

impl Pen {
    pub fn new(size: f64, colour: &'static str, anchor: Anchor) -> Pen {
        Pen {
            size,
            colour,
            anchor,
            bold: false,
            fixed: false,
        }
    }

    pub fn bold(self) -> Pen {
        Pen { bold: true, ..self }
    }

    pub fn fixed(self) -> Pen {
        Pen {
            fixed: true,
            ..self
        }
    }

    /// About how wide a text comes out.
    pub fn width(&self, text: &str) -> f64 {
        let bold = if self.bold { BOLD_WIDTH } else { 1.0 };
        let letter = |letter: char| {
            if self.fixed {
                return FIXED_WIDTH;
            }
            let place = (letter as usize).checked_sub(usize::from(b' '));
            let width = place.and_then(|place| WIDTHS.get(place));
            width.map_or(OTHER_WIDTH, |&width| f64::from(width) / 1000.0) * bold
        };
        text.chars().map(letter).sum::<f64>() * self.size
    }

    /// Breaks a text into lines that fit: at blanks, and within a word that alone is
    /// too wide. No text has no lines.
    pub fn wrapped(&self, text: &str, room: f64) -> Vec<String> {
        let mut lines: Vec<String> = Vec::new();
        for word in text.split(' ').filter(|word| !word.is_empty()) {
            if let Some(line) = lines.last_mut() {
                let longer = format!("{line} {word}");
                if self.width(&longer) <= room {
                    *line = longer;
                    continue;
                }
            }
            let mut part = String::new();
            for letter in word.chars() {
                part.push(letter);
                if part.chars().count() > 1 && self.width(&part) > room {
                    part.pop();
                    lines.push(part);
                    part = letter.to_string();
                }
            }
            lines.push(part);
        }
        lines
    }
}

impl Svg {
    /// The title is what the picture is called, the description its words for those who
    /// do not see it.
    pub fn new(width: f64, height: f64, paper: &str, title: &str, description: &str) -> Svg {
        let mut svg = Svg {
            text: String::new(),
            width,
            written: Vec::new(),
        };
        svg.add(&format!(
            "<svg xmlns=\"http://www.w3.org/2000/svg\" width=\"{width:.0}\" height=\"{height:.0}\" \
             viewBox=\"0 0 {width:.0} {height:.0}\" font-family=\"{FONTS}\" role=\"img\" \
             aria-labelledby=\"title description\">"
        ));
        svg.add(&format!("<title id=\"title\">{}</title>", escaped(title)));
        let description = escaped(description);
        svg.add(&format!("<desc id=\"description\">{description}</desc>"));
        svg.rectangle(0.0, 0.0, width, height, paper);
        svg
    }

    /// The texts that leave the picture at a side or meet another.
    pub fn crowded(&self) -> Vec<String> {
        let mut places: Vec<&Place> = self.written.iter().collect();
        places.sort_by(|a, b| a.edges[1].total_cmp(&b.edges[1]));
        let mut crowded = Vec::new();
        for (number, place) in places.iter().enumerate() {
            let [left, _, right, bottom] = place.edges;
            if left < 0.0 || right > self.width {
                crowded.push(format!("{} leaves the picture", place.text));
            }
            let below = places[number + 1..].iter();
            for other in below.take_while(|other| other.edges[1] < bottom - 1.0) {
                if left < other.edges[2] - 1.0 && other.edges[0] < right - 1.0 {
                    crowded.push(format!("{} meets {}", place.text, other.text));
                }
            }
        }
        crowded
    }

    pub fn finish(mut self) -> String {
        self.add("</svg>");
        self.text
    }

    fn add(&mut self, element: &str) {
        self.text.push_str(element);
        self.text.push('\n');
    }

    /// What is drawn inside is paler.
    pub fn faded(&mut self, opacity: f64, inside: impl FnOnce(&mut Svg)) {
        self.add(&format!("<g opacity=\"{opacity}\">"));
        inside(self);
        self.add("</g>");
    }

    pub fn write(&mut self, x: f64, y: f64, pen: Pen, text: &str) {
        if text.is_empty() {
            return;
        }
        let anchor = match pen.anchor {
            Anchor::Start => "",
            Anchor::Middle => " text-anchor=\"middle\"",
            Anchor::End => " text-anchor=\"end\"",
        };
        let wide = pen.width(text);
        let left = match pen.anchor {
            Anchor::Start => x,
            Anchor::Middle => x - wide / 2.0,
            Anchor::End => x - wide,
        };
        let (top, bottom) = (y - 0.75 * pen.size, y + 0.2 * pen.size);
        self.written.push(Place {
            text: text.to_string(),
            edges: [left, top, left + wide, bottom],
        });
        let bold = if pen.bold {
            " font-weight=\"bold\""
        } else {
            ""
        };
        let family = if pen.fixed {
            format!(" font-family=\"{FIXED}\" xml:space=\"preserve\"")
        } else {
            String::new()
        };
        self.add(&format!(
            "<text x=\"{x:.1}\" y=\"{y:.1}\" font-size=\"{}\" fill=\"{}\"{anchor}{bold}{family}>{}</text>",
            pen.size,
            pen.colour,
            escaped(text)
        ));
    }

    pub fn rectangle(&mut self, x: f64, y: f64, width: f64, height: f64, fill: &str) {
        self.add(&format!(
            "<rect x=\"{x:.1}\" y=\"{y:.1}\" width=\"{width:.1}\" height=\"{height:.1}\" \
             fill=\"{fill}\"/>"
        ));
    }

    /// A rectangle's edge, dashed or not.
    pub fn frame(&mut self, x: f64, y: f64, width: f64, height: f64, colour: &str, dashed: bool) {
        let dash = if dashed {
            " stroke-dasharray=\"4 3\""
        } else {
            ""
        };
        self.add(&format!(
            "<rect x=\"{x:.1}\" y=\"{y:.1}\" width=\"{width:.1}\" height=\"{height:.1}\" \
             fill=\"none\" stroke=\"{colour}\"{dash}/>"
        ));
    }

    pub fn line(&mut self, from: (f64, f64), to: (f64, f64), colour: &str, style: &str) {
        self.add(&format!(
            "<line x1=\"{:.1}\" y1=\"{:.1}\" x2=\"{:.1}\" y2=\"{:.1}\" stroke=\"{colour}\"{style}/>",
            from.0, from.1, to.0, to.1
        ));
    }

    /// Upright lines of one height, thin.
    pub fn rules(&mut self, xs: &[f64], top: f64, bottom: f64, colour: &str) {
        let path: String = xs
            .iter()
            .map(|x| format!("M{x:.1} {top:.1}V{bottom:.1}"))
            .collect();
        if !path.is_empty() {
            self.add(&format!(
                "<path d=\"{path}\" stroke=\"{colour}\" stroke-width=\"0.6\"/>"
            ));
        }
    }

    pub fn disc(&mut self, x: f64, y: f64, radius: f64, colour: &str) {
        self.add(&format!(
            "<circle cx=\"{x:.1}\" cy=\"{y:.1}\" r=\"{radius:.1}\" fill=\"{colour}\"/>"
        ));
    }

    /// An arrow's head whose tip is at (x, y); it points along x.
    pub fn head(&mut self, x: f64, y: f64, towards: f64, colour: &str) {
        let back = x - towards * 8.0;
        self.add(&format!(
            "<path d=\"M{x:.1} {y:.1}L{back:.1} {:.1}V{:.1}Z\" fill=\"{colour}\"/>",
            y - 4.5,
            y + 4.5
        ));
    }

    /// Signs of one size and colour, each at its own middle.
    pub fn signs(&mut self, signs: &[(f64, String)], y: f64, size: f64, colour: &str) {
        if signs.is_empty() {
            return;
        }
        let inside: String = signs
            .iter()
            .map(|(x, sign)| format!("<text x=\"{x:.1}\" y=\"{y:.1}\">{}</text>", escaped(sign)))
            .collect();
        self.add(&format!(
            "<g font-size=\"{size}\" text-anchor=\"middle\" fill=\"{colour}\">{inside}</g>"
        ));
    }
}

fn escaped(text: &str) -> String {
    text.chars()
        .map(|letter| match letter {
            '&' => "&amp;".to_string(),
            '<' => "&lt;".to_string(),
            '>' => "&gt;".to_string(),
            '"' => "&quot;".to_string(),
            other if other.is_control() => " ".to_string(),
            other => other.to_string(),
        })
        .collect()
}
