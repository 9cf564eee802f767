//! The text of a drawing while it grows.

/// The shapes so far. With `titles`, shapes carry words that show under a pointer.
pub struct Canvas {
    pub text: String,
    pub titles: bool,
}

/// The width of a letter of the small print, in tenths: as it is at least, and at most.
const NARROW: usize = 52;
const WIDE: usize = 55;

/// What is left free around words.
const FREE: usize = 6;

/// Whether some words of the small print fit into a width, even if their letters are wide.
pub fn fits(words: &str, width: usize) -> bool {
    words.chars().count() * WIDE <= (width - FREE) * 10
}

impl Canvas {
    pub fn new(titles: bool) -> Canvas {
        Canvas { text: String::new(), titles }
    }

    pub fn add(&mut self, shape: &str) {
        self.text.push_str(shape);
    }

    pub fn open(&mut self, class: &str) {
        self.add(&format!("<g class=\"{}\">\n", class));
    }

    pub fn close(&mut self) {
        self.add("</g>\n");
    }

    /// Words at a place, in the print of their group.
    pub fn words(&mut self, x: usize, y: usize, words: &str) {
        self.add(&format!("<text x=\"{}\" y=\"{}\">{}</text>\n", x, y, escaped(words)));
    }

    /// Words that are pressed together where they would be wider than that.
    pub fn words_within(&mut self, x: usize, y: usize, words: &str, width: usize) {
        if words.chars().count() * NARROW <= (width - FREE) * 10 {
            return self.words(x, y, words);
        }
        let length = format!("textLength=\"{}\" lengthAdjust=\"spacingAndGlyphs\"", width - FREE);
        self.add(&format!("<text x=\"{}\" y=\"{}\" {}>{}</text>\n", x, y, length, escaped(words)));
    }

    /// A shape without its end, as `<rect x="0"`, which shows words under a pointer.
    pub fn shape(&mut self, tag: &str, name: &str, title: impl Fn() -> String) {
        match self.titles {
            true => {
                let title = escaped(&title());
                self.add(&format!("{}><title>{}</title></{}>\n", tag, title, name));
            }
            false => self.add(&format!("{}/>\n", tag)),
        }
    }
}

/// Words as they stand in XML.
pub fn escaped(words: &str) -> String {
    let mut safe = String::with_capacity(words.len());
    for letter in words.chars() {
        match letter {
            '&' => safe.push_str("&amp;"),
            '<' => safe.push_str("&lt;"),
            '>' => safe.push_str("&gt;"),
            '"' => safe.push_str("&quot;"),
            _ => safe.push(letter),
        }
    }
    safe
}
