//! The picture of a draft: the elements at three times, and the plate, with the proved open and with one that does not zero.

use crate::draft::{self, Drafted, Of};
use crate::plan::Plan;
use std::fmt::Write;

const CELLS: usize = 64;
const CELL: usize = 6;
const ROW: usize = 16;
const LEFT: usize = 120;
const WIDE: usize = CELLS * CELL;
const GAP: usize = 56;

const STYLE: &str = r#"font-family="DejaVu Sans, Verdana, sans-serif" font-size="12" role="img" aria-labelledby="title description""#;

fn colour(of: Of) -> &'static str {
    match of {
        Of::Nobody => "#ffffff",
        Of::Draft => "#c8553d",
        Of::Plate => "#3a6ea5",
        Of::Else => "#000000",
    }
}

/// A cell is the draft's where one byte of it is.
fn cell(bytes: &[u8]) -> Of {
    let all = || bytes.iter().map(|&byte| draft::of(byte));
    [Of::Draft, Of::Else, Of::Plate].into_iter().find(|&of| all().any(|byte| byte == of)).unwrap_or(Of::Nobody)
}

/// A row of cells, neighbours of one colour joined.
fn strip(svg: &mut String, x: usize, y: usize, bytes: &[u8], cells: usize) {
    let colours: Vec<Of> = (0..cells).map(|k| cell(&bytes[bytes.len() * k / cells..bytes.len() * (k + 1) / cells])).collect();
    let mut at = 0;
    for run in colours.chunk_by(|a, b| a == b) {
        let (x, width) = (x + at * CELL, run.len() * CELL);
        let _ = writeln!(svg, r#"<rect x="{x}" y="{y}" width="{width}" height="{}" fill="{}"/>"#, ROW - 4, colour(run[0]));
        at += run.len();
    }
    let _ = writeln!(svg, r##"<rect x="{x}" y="{y}" width="{}" height="{}" fill="none" stroke="#444"/>"##, cells * CELL, ROW - 4);
}

fn say(svg: &mut String, x: usize, y: usize, more: &str, text: &str) {
    let text = text.replace('&', "&amp;").replace('<', "&lt;");
    let _ = writeln!(svg, r#"<text x="{x}" y="{y}"{more}>{text}</text>"#);
}

pub fn draw(plan: &Plan, proved: &Drafted, control: &Drafted) -> String {
    let k = plan.connections as usize;
    let block = 40 + k * ROW;
    let (width, height) = (LEFT + 2 * WIDE + GAP + 24, 96 + 4 * block + 64);
    let title = "A draft was aborted, its elements were opened again, and a shorter job followed in them";
    let found = |run: &Drafted| run.plate.iter().filter(|&&byte| draft::of(byte) == Of::Draft).count();
    let description = format!(
        "{k} connections, elements of {} bytes. Left, with the proved open: {} bytes of the draft in the plate. Right, with an open that \
         does not zero: {}. The card lost every second piece of the shorter job on purpose.",
        plan.element,
        found(proved),
        found(control)
    );
    let mut svg = String::new();
    let _ = writeln!(
        svg,
        r#"<svg xmlns="http://www.w3.org/2000/svg" width="{width}" height="{height}" viewBox="0 0 {width} {height}" {STYLE}>"#
    );
    let _ = writeln!(svg, "<title id=\"title\">{title}</title>\n<desc id=\"description\">{description}</desc>");
    let _ = writeln!(svg, r##"<rect width="{width}" height="{height}" fill="#f7f5f0"/>"##);
    say(&mut svg, 16, 26, r#" font-size="15" font-weight="bold""#, title);
    let mut x = 16;
    for (of, word) in [(Of::Draft, "the draft's bytes"), (Of::Plate, "the new job's"), (Of::Nobody, "zeros")] {
        let _ = writeln!(svg, r##"<rect x="{x}" y="38" width="12" height="12" fill="{}" stroke="#444"/>"##, colour(of));
        say(&mut svg, x + 18, 49, "", word);
        x += 150;
    }
    say(&mut svg, x, 49, "", "The card loses every second piece of the new job, on purpose.");
    let names = ["the draft is aborted", "the slots are opened again", "the new job was written", "the plate that was read"];
    for (side, (name, run)) in
        [("the proved open", proved), ("an open that does not zero (a stand-in, not the proved one)", control)].into_iter().enumerate()
    {
        let x = LEFT + side * (WIDE + GAP);
        say(&mut svg, x, 78, r#" font-size="13" font-weight="bold""#, name);
        for (time, name) in names.into_iter().enumerate() {
            let y = 96 + time * block;
            say(&mut svg, x, y + 10, "", &format!("{}. {name}", time + 1));
            for slot in 0..k {
                let row = y + 18 + slot * ROW;
                if side == 0 {
                    let word = if time == 3 { "part" } else { "element" };
                    say(&mut svg, LEFT - 12, row + 10, r#" text-anchor="end""#, &format!("{word} {}", slot + 1));
                }
                match run.elements.get(time) {
                    Some(elements) => strip(&mut svg, x, row, &elements[slot], CELLS),
                    None => {
                        let part = run.plate.len() / k;
                        strip(&mut svg, x, row, &run.plate[slot * part..][..part], CELLS * draft::WRITTEN / draft::PIECES);
                    }
                }
            }
        }
        let y = 96 + 4 * block;
        let bold = r#" font-weight="bold""#;
        say(&mut svg, x, y + 12, bold, &format!("bytes of the draft in the plate: {}", found(run)));
        let at = draft::piece(plan);
        say(&mut svg, x, y + 34, r#" font-family="DejaVu Sans Mono, monospace" font-size="11""#, &draft::about(&run.plate, at));
        say(&mut svg, x, y + 50, r##" font-size="11" fill="#555""##, &format!("the plate about byte {at}; a dot is a zero"));
    }
    svg.push_str("</svg>\n");
    svg
}
