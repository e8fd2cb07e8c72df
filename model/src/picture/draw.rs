//! How the rows are drawn: the ladder in the middle, at its sides each end's
//! element with P, C and T, and below it what the end knows of the peer's
//! element, Q and R.

use std::ops::Range;

use super::svg::{Anchor, Pen, Svg};
use super::tell::{pair, sign};
use super::{name, Alternative, Row, Said, Shot, Step, What};
use crate::cast::Ends;
use crate::pool::{Books, UNITS};
use crate::smcr::*;

const MARGIN: f64 = 24.0;
const BAND: f64 = 384.0;
const BAND_HEIGHT: f64 = 20.0;
/// Beside a band, so that a cursor's label may stand out on the right.
const OVERHANG: f64 = 76.0;
const GAP: f64 = 30.0;
const LADDER: f64 = 430.0;
/// What a text in the ladder may be wide: in the middle, and beside an end's line.
const MIDDLE: f64 = LADDER - 16.0;
const BESIDE: f64 = LADDER - 30.0;
/// Where the peer's line stands, if no row has two elements.
const PEER: f64 = 66.0;
const HEAD: f64 = 136.0;
/// A row that names who is at the sides.
const NAMES: f64 = 34.0;
/// Above and below what a row holds.
const PAD: f64 = 11.0;
/// A line of text in the ladder: the upper, bold ones beside an end, and the others.
const BOLD_LINE: f64 = 16.0;
const LINE: f64 = 15.0;
const HEX_LINE: f64 = 14.0;
/// A line of cursors below a band, and the line of Q and R below these.
const LABELS: f64 = 14.0;
const STRIP: f64 = 150.0;
const STRIP_HEIGHT: f64 = 9.0;
/// The units of the pool.
const POOL: f64 = 384.0;
const POOL_HEIGHT: f64 = 12.0;
/// From this width on a cell shows its byte.
const CELL_TEXT_FROM: f64 = 9.5;
/// The most steps that the alternative text has.
const SPOKEN: usize = 400;

const PAPER: &str = "#fbfcfd";
const SHADE: &str = "#f2f5f8";
const INK: &str = "#1d2733";
const PALE: &str = "#6b7785";
const FAINT: &str = "#a9b4bf";
const ZERO: &str = "#8b97a3";
const GRID: &str = "#d3dae1";
const FREE: &str = "#ffffff";
const EYE: &str = "#5a6675";
const UNREAD: &str = "#8fc1e8";
const UNTOLD: &str = "#f4d58d";
const STALE: &str = "#f0c7c0";
const STALE_INK: &str = "#8c2f24";
const WRITTEN: &str = "#2b8a3e";
const TAKEN: &str = "#b9a3dd";
const RED: &str = "#b3261e";
const BLUE: &str = "#1f5f99";
const BROWN: &str = "#8a6d1d";
const VIOLET: &str = "#5b3fa0";
const GREEN: &str = "#1d6b3a";

/// Where the columns stand.
struct Layout {
    /// Where a row has one element only it is on the right.
    bands: [f64; 2],
    lines: [f64; 2],
    width: f64,
}

impl Layout {
    /// The left column has room for elements if some row has one there.
    fn of(rows: &[Row]) -> Layout {
        let left = rows
            .iter()
            .any(|row| matches!(row, Row::Ends([Some(_), _], _)));
        let first = if left { MARGIN + BAND + OVERHANG } else { PEER };
        let second = first + LADDER;
        Layout {
            bands: [MARGIN, second + GAP],
            lines: [first, second],
            width: second + GAP + BAND + OVERHANG,
        }
    }

    fn middle(&self) -> f64 {
        (self.lines[0] + self.lines[1]) / 2.0
    }

    fn has_left(&self) -> bool {
        self.lines[0] > PEER
    }
}

/// Whether an element has too many bytes for a sign to each.
pub fn without_bytes(size: usize) -> bool {
    BAND / (size.max(1) as f64) < CELL_TEXT_FROM
}

pub fn draw(rows: &[Row], alternative: &Alternative) -> Svg {
    let layout = Layout::of(rows);
    let heights = heights(rows, &layout);
    let left_out = left_out_lines(&layout, alternative);
    let head = HEAD + LINE * left_out.len() as f64;
    let height = head + heights.iter().sum::<f64>() + MARGIN;
    let description = description(alternative);
    let mut svg = Svg::new(
        layout.width,
        height,
        PAPER,
        &alternative.title,
        &description,
    );
    draw_head(&mut svg, &layout, &left_out);
    let mut y = head;
    let mut previous: [Option<&Shot>; 2] = [None, None];
    let mut number = 0;
    for (row, row_height) in rows.iter().zip(heights) {
        match row {
            Row::Caption(text) => draw_caption(&mut svg, &layout, text, y),
            Row::Ends(ends, size) => {
                draw_names(&mut svg, &layout, *ends, *size, y);
                previous = [None, None];
            }
            Row::Step(step) => {
                if number % 2 == 1 {
                    svg.rectangle(0.0, y, layout.width, row_height, SHADE);
                }
                number += 1;
                for x in layout.lines {
                    let style = " stroke-width=\"1.5\"";
                    svg.line((x, y), (x, y + row_height), FAINT, style);
                }
                draw_what(&mut svg, &layout, &step.what, y + PAD);
                for side in 0..2 {
                    if let Some(shot) = &step.ends[side] {
                        let shown = shown(step, side, shot, previous[side]);
                        draw_end(&mut svg, shot, layout.bands[side], y, shown);
                        previous[side] = Some(shot);
                    }
                }
            }
        }
        y += row_height;
    }
    svg
}

/// The alternative text: how to read the picture, then its rows in words.
fn description(alternative: &Alternative) -> String {
    let words = &alternative.words;
    let mut text = "Time runs downward. ".to_string();
    if !alternative.left_out.is_empty() {
        text.push_str(&format!("{}. ", left_out_text(alternative)));
    }
    text.push_str(&words[..words.len().min(SPOKEN)].join(". "));
    if words.len() > SPOKEN {
        let more = words.len() - SPOKEN;
        text.push_str(&format!(". {more} more rows are drawn and not told here"));
    }
    text
}

fn left_out_text(alternative: &Alternative) -> String {
    format!("Not drawn: {}", alternative.left_out.join("; "))
}

fn left_out_lines(layout: &Layout, alternative: &Alternative) -> Vec<String> {
    if alternative.left_out.is_empty() {
        return Vec::new();
    }
    let text = left_out_text(alternative);
    Pen::new(11.0, PALE, Anchor::Start).wrapped(&text, layout.width - 2.0 * MARGIN)
}

// How high each row is.

/// What of an end a row shows in full: what the step changed or looked at. An
/// element that is as the row before left it is pale and without its cursors.
struct Shown {
    element: bool,
    strip: bool,
    /// The offsets that the step wrote.
    written: Range<usize>,
}

fn shown(step: &Step, side: usize, shot: &Shot, previous: Option<&Shot>) -> Shown {
    let written = match &step.written {
        Some((at, range)) if *at == side => range.clone(),
        _ => 0..0,
    };
    let looked = matches!(&step.what, What::Bytes { side: Some(at), .. } if *at == side);
    let reading = |c: &Connection| (c.open, c.peer_producer, c.consumer, c.told, c.urgent_heard);
    let writing = |c: &Connection| {
        (
            c.open,
            c.producer,
            c.peer_consumer,
            c.blocked,
            c.urgent_sent,
            c.link,
        )
    };
    let (c, before) = (&shot.record, previous.map(|shot| &shot.record));
    let bytes = previous.map(|shot| &shot.element);
    Shown {
        element: looked
            || !written.is_empty()
            || before.map(reading) != Some(reading(c))
            || bytes != Some(&shot.element),
        strip: c.open && before.map(writing) != Some(writing(c)),
        written,
    }
}

fn heights(rows: &[Row], layout: &Layout) -> Vec<f64> {
    let mut previous: [Option<&Shot>; 2] = [None, None];
    rows.iter()
        .map(|row| match row {
            Row::Caption(text) => {
                let lines = caption_lines(layout, text).len() as f64;
                22.0 + CAPTION_LINE * lines
            }
            Row::Ends(ends, _) => {
                previous = [None, None];
                if *ends == [None, None] {
                    0.0
                } else {
                    NAMES
                }
            }
            Row::Step(step) => {
                let mut height = ladder_height(&step.what);
                for side in 0..2 {
                    if let Some(shot) = &step.ends[side] {
                        let shown = shown(step, side, shot, previous[side]);
                        height = height.max(end_height(shot, &shown));
                        previous[side] = Some(shot);
                    }
                }
                height + 2.0 * PAD
            }
        })
        .collect()
}

/// The lines of a text and of what stands below it.
struct Lines {
    text: Vec<String>,
    below: Vec<String>,
}

impl Lines {
    fn of(what: &What) -> Lines {
        let Said { text, below, .. } = what.said();
        let (bold, room) = match what {
            What::Call { .. } | What::Bytes { side: Some(_), .. } => (true, BESIDE),
            What::Move { .. } => (true, MIDDLE),
            _ => (false, MIDDLE),
        };
        let pen = match bold {
            true => Pen::new(13.0, INK, Anchor::Start).bold(),
            false => Pen::new(12.0, INK, Anchor::Start),
        };
        Lines {
            text: pen.wrapped(text, room),
            below: Pen::new(12.0, INK, Anchor::Start).wrapped(below, room),
        }
    }

    /// How high both are together.
    fn height(&self, first: f64) -> f64 {
        first * self.text.len() as f64 + LINE * self.below.len() as f64
    }
}

fn ladder_height(what: &What) -> f64 {
    let lines = Lines::of(what);
    match what {
        What::Middle { pool, .. } => {
            let pool = if pool.is_some() {
                POOL_HEIGHT + 6.0
            } else {
                0.0
            };
            (lines.height(LINE) + pool).max(BAND_HEIGHT)
        }
        What::Move { .. } => lines.height(LINE) + 38.0,
        What::Call { .. } => (lines.height(BOLD_LINE) + 2.0).max(34.0),
        What::Arrow { .. } => (lines.height(LINE) + 6.0).max(36.0),
        What::Bytes { hex, side, .. } => {
            let first = if side.is_some() { BOLD_LINE } else { LINE };
            lines.height(first) + 4.0 + HEX_LINE * hex.len() as f64
        }
    }
}

fn end_height(shot: &Shot, shown: &Shown) -> f64 {
    let below = match (shown.element, shot.record.open) {
        (false, _) => 0.0,
        (true, false) => LABELS + 4.0,
        (true, true) => LABELS * Band::of(shot, 0.0, 0.0).levels(&shot.record),
    };
    BAND_HEIGHT + below + if shown.strip { STRIP_HEIGHT + 8.0 } else { 0.0 }
}

// The head.

fn draw_head(svg: &mut Svg, layout: &Layout, left_out: &[String]) {
    let small = Pen::new(11.0, PALE, Anchor::Start);
    for side in 0..2 {
        if side == 0 && !layout.has_left() {
            continue;
        }
        let x = layout.bands[side];
        let pen = Pen::new(14.0, INK, Anchor::Start).bold();
        svg.write(x, 30.0, pen, "an end's element");
        let notes = [
            "P the peer's producer, C our consumer, T the consumer last told",
            "below: the peer's element as this end knows it, by its own",
            "producer Q and the peer's consumer R; room is what is left",
        ];
        for (line, note) in notes.iter().enumerate() {
            svg.write(x, 50.0 + 16.0 * line as f64, small, note);
        }
        let legend = [
            vec![
                (UNREAD, "unread"),
                (UNTOLD, "read, not told"),
                (TAKEN, "R to Q: not known as read"),
            ],
            vec![
                (STALE, "left by a closed connection"),
                (WRITTEN, "written by this step"),
            ],
        ];
        for (line, entries) in legend.iter().enumerate() {
            let (mut at, y) = (x, 94.0 + 18.0 * line as f64);
            for (colour, text) in entries {
                swatch(svg, at, y, colour);
                let pen = Pen::new(11.0, INK, Anchor::Start);
                svg.write(at + 17.0, y + 9.0, pen, text);
                at += 17.0 + 10.0 + pen.width(text);
            }
        }
    }
    let middle = layout.middle();
    let pen = Pen::new(14.0, INK, Anchor::Middle).bold();
    svg.write(middle, 30.0, pen, "time runs downward");
    let pen = Pen::new(12.0, INK, Anchor::Start);
    let arrows = [
        (INK, SOLID, "RDMA write, by the card"),
        (BLUE, DOTTED, "CDC message"),
    ];
    for (line, (colour, style, text)) in arrows.into_iter().enumerate() {
        let y = 52.0 + 20.0 * line as f64;
        svg.line((middle - 110.0, y), (middle - 62.0, y), colour, style);
        svg.head(middle - 56.0, y, 1.0, colour);
        svg.write(middle - 44.0, y + 4.0, pen, text);
    }
    svg.disc(middle - 83.0, 92.0, 5.0, INK);
    svg.write(middle - 44.0, 96.0, pen, "call at this end");
    let red = Pen::new(12.0, RED, Anchor::End);
    svg.write(middle - 54.0, 116.0, red, "red");
    svg.write(middle - 44.0, 116.0, pen, "a call that is refused");
    for (line, text) in left_out.iter().enumerate() {
        svg.write(MARGIN, HEAD + LINE * line as f64 + 4.0, small, text);
    }
}

/// Who is at the sides from here on.
fn draw_names(svg: &mut Svg, layout: &Layout, ends: Ends, size: u32, y: f64) {
    if ends == [None, None] {
        return;
    }
    let title = Pen::new(15.0, INK, Anchor::Middle).bold();
    for side in 0..2 {
        svg.write(layout.lines[side], y + 22.0, title, &name(ends[side]));
        if let Some(index) = ends[side] {
            let text = format!(
                "element {}: {size} bytes, {} of data",
                index + 1,
                size.saturating_sub(4)
            );
            let (x, anchor) = match side {
                0 => (layout.bands[0], Anchor::Start),
                _ => (layout.bands[1] + BAND, Anchor::End),
            };
            let pen = Pen::new(12.0, PALE, anchor);
            svg.write(x, y + 22.0, pen, &text);
        }
    }
}

const SOLID: &str = " stroke-width=\"1.6\"";
const DOTTED: &str = " stroke-width=\"1.6\" stroke-dasharray=\"2 4\"";

fn swatch(svg: &mut Svg, x: f64, y: f64, colour: &str) {
    if colour == WRITTEN {
        svg.rectangle(x, y + 7.0, 12.0, 3.0, colour);
    } else {
        svg.rectangle(x, y, 12.0, 10.0, colour);
        svg.frame(x, y, 12.0, 10.0, FAINT, false);
    }
}

const CAPTION_LINE: f64 = 16.0;

fn caption_pen() -> Pen {
    Pen::new(13.0, INK, Anchor::Start).bold()
}

fn caption_lines(layout: &Layout, text: &str) -> Vec<String> {
    caption_pen().wrapped(text, layout.width - 2.0 * MARGIN - 24.0)
}

fn draw_caption(svg: &mut Svg, layout: &Layout, text: &str, y: f64) {
    let width = layout.width - 2.0 * MARGIN;
    let lines = caption_lines(layout, text);
    let height = 10.0 + CAPTION_LINE * lines.len() as f64;
    svg.rectangle(MARGIN, y + 6.0, width, height, "#e4eaf0");
    for (line, text) in lines.iter().enumerate() {
        let at = y + 24.0 + CAPTION_LINE * line as f64;
        svg.write(MARGIN + 12.0, at, caption_pen(), text);
    }
}

// The ladder.

/// Whether a text of the group has room in a row.
pub fn fits(text: &str) -> bool {
    Pen::new(12.0, PALE, Anchor::Middle).width(text) <= MIDDLE
}

/// Writes lines one below the other from a first one on; where the next would stand
/// comes back.
fn write_lines(svg: &mut Svg, x: f64, y: f64, pen: Pen, step: f64, lines: &[String]) -> f64 {
    for (line, text) in lines.iter().enumerate() {
        svg.write(x, y + step * line as f64, pen, text);
    }
    y + step * lines.len() as f64
}

/// A step's words, arrows and discs; y is the row's upper edge within its pad.
fn draw_what(svg: &mut Svg, layout: &Layout, what: &What, y: f64) {
    let said = what.said();
    let lines = Lines::of(what);
    let ink = |otherwise: &'static str| if said.refused { RED } else { otherwise };
    let below = |anchor: Anchor| Pen::new(12.0, ink(PALE), anchor);
    let middle = layout.middle();
    let first = y + BAND_HEIGHT / 2.0 + 4.0;
    match what {
        What::Middle { pool, .. } => {
            let colour = ink(if said.below.is_empty() { PALE } else { INK });
            let pen = Pen::new(12.0, colour, Anchor::Middle);
            let next = write_lines(svg, middle, first, pen, LINE, &lines.text);
            let next = write_lines(svg, middle, next, below(Anchor::Middle), LINE, &lines.below);
            if let Some(books) = pool {
                draw_pool(svg, middle - POOL / 2.0, next - 8.0, books);
            }
        }
        What::Move { sides, .. } => {
            let pen = Pen::new(12.0, GREEN, Anchor::Middle).bold();
            let next = write_lines(svg, middle, first, pen, LINE, &lines.text);
            let next = write_lines(svg, middle, next, below(Anchor::Middle), LINE, &lines.below);
            for side in 0..2 {
                let Some((goes, tells)) = &sides[side] else {
                    continue;
                };
                let (x, anchor) = beside(svg, layout, side, next, GREEN);
                let pen = Pen::new(13.0, GREEN, anchor).bold();
                svg.write(x, next + 4.0, pen, goes);
                svg.write(x, next + 20.0, Pen::new(12.0, PALE, anchor), tells);
            }
        }
        What::Call { side, .. } => {
            let (x, anchor) = beside(svg, layout, *side, y + BAND_HEIGHT / 2.0, ink(INK));
            let pen = Pen::new(13.0, ink(INK), anchor).bold();
            let next = write_lines(svg, x, first, pen, BOLD_LINE, &lines.text);
            write_lines(svg, x, next, below(anchor), LINE, &lines.below);
        }
        What::Bytes { side, hex, .. } => {
            let wide = Pen::new(11.0, INK, Anchor::Start).fixed();
            let widest = hex.iter().map(|line| wide.width(line)).fold(0.0, f64::max);
            let (x, anchor, pen) = match side {
                Some(side) => {
                    let (x, anchor) = beside(svg, layout, *side, y + BAND_HEIGHT / 2.0, PALE);
                    (x, anchor, Pen::new(13.0, INK, anchor).bold())
                }
                None => {
                    let anchor = Anchor::Middle;
                    (middle, anchor, Pen::new(12.0, INK, anchor))
                }
            };
            let next = write_lines(svg, x, first, pen, BOLD_LINE, &lines.text);
            // The lines begin one below the other.
            let start = match anchor {
                Anchor::Start => x,
                Anchor::Middle => x - widest / 2.0,
                Anchor::End => x - widest,
            };
            write_lines(svg, start, next, wide, HEX_LINE, hex);
        }
        What::Arrow { to, message, .. } => {
            let (from, tip) = (layout.lines[1 - to], layout.lines[*to]);
            let towards = if tip > from { 1.0 } else { -1.0 };
            let colour = ink(if *message { BLUE } else { INK });
            let style = if *message { DOTTED } else { SOLID };
            let pen = Pen::new(12.0, colour, Anchor::Middle);
            let next = write_lines(svg, middle, y + 11.0, pen, LINE, &lines.text);
            let line = next - 8.0;
            let end = tip - towards * 8.0;
            svg.line((from + towards * 2.0, line), (end, line), colour, style);
            svg.head(tip - towards, line, towards, colour);
            let pen = below(Anchor::Middle);
            write_lines(svg, middle, line + 16.0, pen, LINE, &lines.below);
        }
    }
}

/// The 64 units of the pool, those of each block given out in one frame.
fn draw_pool(svg: &mut Svg, x: f64, y: f64, books: &Books) {
    let unit = POOL / UNITS as f64;
    svg.rectangle(x, y, POOL, POOL_HEIGHT, FREE);
    for block in books.blocks() {
        let end = (block.start + block.size).min(UNITS);
        let (from, width) = (block.start as f64 * unit, (end - block.start) as f64 * unit);
        svg.rectangle(x + from, y, width, POOL_HEIGHT, TAKEN);
        svg.frame(x + from, y, width, POOL_HEIGHT, VIOLET, false);
    }
    let edges: Vec<f64> = (1..UNITS).map(|edge| x + edge as f64 * unit).collect();
    svg.rules(&edges, y, y + POOL_HEIGHT, GRID);
    svg.frame(x, y, POOL, POOL_HEIGHT, PALE, false);
}

/// A disc on an end's line, and where text beside it starts or ends.
fn beside(svg: &mut Svg, layout: &Layout, side: usize, y: f64, colour: &str) -> (f64, Anchor) {
    let x = layout.lines[side];
    svg.disc(x, y, 5.0, colour);
    if side == 0 {
        (x + 14.0, Anchor::Start)
    } else {
        (x - 14.0, Anchor::End)
    }
}

// An end.

fn draw_end(svg: &mut Svg, shot: &Shot, x: f64, y: f64, shown: Shown) {
    let band = Band::of(shot, x, y + PAD);
    let mut bottom = band.top + BAND_HEIGHT;
    if !shown.element {
        svg.faded(0.36, |svg| band.element(svg, shot, 0..0));
    } else {
        band.element(svg, shot, shown.written);
        if shot.record.open {
            band.cursors(svg, &shot.record);
            bottom += LABELS * band.levels(&shot.record);
        } else {
            let (text, colour) = if held(&shot.element).is_empty() {
                ("closed", PALE)
            } else {
                ("closed: the bytes lie here until the next open", STALE_INK)
            };
            let pen = Pen::new(11.0, colour, Anchor::Start);
            svg.write(x, bottom + LABELS, pen, text);
        }
    }
    if shown.strip {
        strip(svg, shot, x, bottom + 8.0);
    }
}

/// An element as a band.
struct Band {
    x: f64,
    top: f64,
    size: i64,
}

/// The label of one cursor or of several at the same place, below a band.
struct Flag {
    names: String,
    at: Cursor,
    /// Where the place is, and up to where its label may go.
    x: f64,
    most: f64,
    level: usize,
}

impl Flag {
    /// From where to where the label goes: to the right of its place, and further left
    /// where it would leave its column.
    fn span(&self) -> (f64, f64) {
        let width = Pen::new(11.0, INK, Anchor::Start).width(&self.text()) + 8.0;
        let start = self.x.min(self.most - width);
        (start, start + width)
    }

    fn meets(&self, other: &Flag) -> bool {
        let (mine, others) = (self.span(), other.span());
        self.level == other.level && mine.0 < others.1 && others.0 < mine.1
    }

    fn text(&self) -> String {
        format!("{} {}", self.names, pair(self.at))
    }
}

impl Band {
    fn of(shot: &Shot, x: f64, top: f64) -> Band {
        Band {
            x,
            top,
            size: (shot.element.len() as i64).max(1),
        }
    }

    fn bottom(&self) -> f64 {
        self.top + BAND_HEIGHT
    }

    fn at(&self, offset: i64) -> f64 {
        self.x + BAND * offset.clamp(0, self.size) as f64 / self.size as f64
    }

    fn cell(&self) -> f64 {
        BAND / self.size as f64
    }

    /// Paints offsets from one up to another.
    fn paint(&self, svg: &mut Svg, from: i64, to: i64, colour: &str) {
        if from < to {
            let width = self.at(to) - self.at(from);
            svg.rectangle(self.at(from), self.top, width, BAND_HEIGHT, colour);
        }
    }

    /// Paints so many bytes from a cursor on, past the end from 4 again.
    fn run(&self, svg: &mut Svg, from: Cursor, length: i64, colour: &str) {
        let start = i64::from(from.offset);
        let first = length.min(self.size - start);
        self.paint(svg, start, start + first, colour);
        self.paint(svg, FIRST_OFFSET, FIRST_OFFSET + length - first, colour);
    }

    /// The element with its bytes; the offsets that were written are marked.
    fn element(&self, svg: &mut Svg, shot: &Shot, written: Range<usize>) {
        let c = &shot.record;
        let n = self.size;
        let sound = c.open && coherent(c, n);
        svg.rectangle(self.x, self.top, BAND, BAND_HEIGHT, FREE);
        if sound {
            self.run(svg, c.told, distance(c.told, c.consumer, n), UNTOLD);
            self.run(svg, c.consumer, c.unread(n), UNREAD);
        }
        if !c.open {
            for (start, end) in held(&shot.element) {
                self.paint(svg, start, end, STALE);
            }
        }
        let eye = shot.element.get(..4) == Some(&EYE_CATCHER);
        if eye {
            self.paint(svg, 0, FIRST_OFFSET, if c.open { EYE } else { FAINT });
        }
        if self.cell() >= CELL_TEXT_FROM {
            let unread = if sound { c.unread(n) } else { 0 };
            self.bytes(svg, shot, eye, unread);
        }
        if !written.is_empty() {
            let (start, end) = (self.at(written.start as i64), self.at(written.end as i64));
            svg.rectangle(start, self.bottom() - 3.0, end - start, 3.0, WRITTEN);
        }
        let colour = if c.open { INK } else { PALE };
        svg.frame(self.x, self.top, BAND, BAND_HEIGHT, colour, !c.open);
    }

    /// Cells and what they hold.
    fn bytes(&self, svg: &mut Svg, shot: &Shot, eye: bool, unread: i64) {
        let from = i64::from(shot.record.consumer.offset);
        let edges: Vec<f64> = (1..self.size).map(|offset| self.at(offset)).collect();
        svg.rules(&edges, self.top, self.bottom(), GRID);
        let data = data_size(self.size).max(1);
        // Unread bytes, zeros, and all others; the eye catcher and other bytes that are no letters.
        let mut letters: [Vec<(f64, String)>; 3] = Default::default();
        let mut numbers: [Vec<(f64, String)>; 2] = Default::default();
        for (offset, &byte) in shot.element.iter().enumerate() {
            let offset = offset as i64;
            let x = self.at(offset) + self.cell() / 2.0;
            let ahead = (offset - from).rem_euclid(data);
            let is_unread = offset >= FIRST_OFFSET && ahead < unread;
            match sign(byte) {
                Some(letter) if offset >= FIRST_OFFSET || !eye => {
                    let kind = if is_unread {
                        0
                    } else if byte == 0 {
                        1
                    } else {
                        2
                    };
                    letters[kind].push((x, letter.to_string()));
                }
                _ => {
                    let in_eye = eye && offset < FIRST_OFFSET;
                    numbers[usize::from(!in_eye)].push((x, format!("{byte:02X}")));
                }
            }
        }
        let others = if shot.record.open { PALE } else { STALE_INK };
        let y = self.top + 14.0;
        for (letters, colour) in letters.iter().zip([INK, ZERO, others]) {
            svg.signs(letters, y, 11.0, colour);
        }
        for (numbers, colour) in numbers.iter().zip([FREE, others]) {
            svg.signs(numbers, y - 0.5, 8.0, colour);
        }
    }

    /// Where the labels of P, C, T and the urgent place stand: to the right of their places, and
    /// deeper where they would meet one that stands further right.
    fn flags(&self, c: &Connection) -> Vec<Flag> {
        let mut flags: Vec<Flag> = Vec::new();
        let cursors = [("P", c.peer_producer), ("C", c.consumer), ("T", c.told)];
        let urgent = c.urgent_heard.map(|at| ("urgent", at));
        for (name, at) in cursors.into_iter().chain(urgent) {
            match flags.iter_mut().find(|flag| flag.at == at) {
                Some(flag) => flag.names = format!("{} {name}", flag.names),
                None => flags.push(Flag {
                    names: name.to_string(),
                    at,
                    x: self.at(i64::from(at.offset)),
                    most: self.x + BAND + OVERHANG - 6.0,
                    level: 0,
                }),
            }
        }
        flags.sort_by(|a, b| b.x.total_cmp(&a.x));
        for later in 1..flags.len() {
            let (before, rest) = flags.split_at_mut(later);
            while before.iter().any(|flag| rest[0].meets(flag)) {
                rest[0].level += 1;
            }
        }
        flags
    }

    /// How many lines of labels there are.
    fn levels(&self, c: &Connection) -> f64 {
        let flags = self.flags(c);
        flags.iter().map(|flag| flag.level + 1).max().unwrap_or(0) as f64
    }

    /// P, C, T and the urgent place below the band.
    fn cursors(&self, svg: &mut Svg, c: &Connection) {
        for flag in self.flags(c) {
            let y = self.bottom() + LABELS * (flag.level + 1) as f64;
            let colour = if flag.names == "T" { BROWN } else { INK };
            let style = " stroke-width=\"1.4\"";
            let start = flag.span().0;
            // A line beside its label, or down to it.
            let end = if start < flag.x { y - 10.0 } else { y };
            svg.line((flag.x, self.bottom() - 4.0), (flag.x, end), colour, style);
            let pen = Pen::new(11.0, colour, Anchor::Start);
            svg.write(start + 4.0, y - 1.0, pen, &flag.text());
        }
    }
}

/// The peer's element as this end knows it: from R to Q it may be unread.
/// An end that moved says by which link.
fn strip(svg: &mut Svg, shot: &Shot, x: f64, y: f64) {
    let c = &shot.record;
    let size = c.n_peer();
    let length = distance(c.peer_consumer, c.producer, size);
    let pen = Pen::new(11.0, VIOLET, Anchor::Start);
    let (red, room) = (Pen::new(11.0, RED, Anchor::Start).bold(), c.room());
    let mut notes = vec![
        (pen, format!("R {}", pair(c.peer_consumer))),
        (pen, format!("Q {}", pair(c.producer))),
        match (good(length, size), c.urgent_sent.is_some(), c.blocked) {
            (false, _, _) => (red, "not coherent".to_string()),
            (true, true, _) => (red, format!("room {room}, urgent")),
            (true, false, true) => (red, format!("room {room}, blocked")),
            (true, false, false) => (pen, format!("room {room}")),
        },
    ];
    if shot.moved {
        let pen = Pen::new(11.0, GREEN, Anchor::Start).bold();
        notes.push((pen, format!("link {}", c.link)));
    }
    // Long notes leave it less room.
    let wide: f64 = notes.iter().map(|(pen, note)| pen.width(note) + 7.0).sum();
    let whole = STRIP.min(BAND + OVERHANG - 18.0 - wide).max(20.0);
    let at = |offset: i64| x + whole * offset.clamp(0, size) as f64 / size.max(1) as f64;
    svg.rectangle(x, y, whole, STRIP_HEIGHT, FREE);
    svg.rectangle(x, y, at(FIRST_OFFSET) - x, STRIP_HEIGHT, FAINT);
    if good(length, size) {
        let start = i64::from(c.peer_consumer.offset);
        let first = length.min(size - start);
        for (offset, part) in [(start, first), (FIRST_OFFSET, length - first)] {
            if part > 0 {
                let width = at(offset + part) - at(offset);
                svg.rectangle(at(offset), y, width, STRIP_HEIGHT, TAKEN);
            }
        }
    }
    svg.frame(x, y, whole, STRIP_HEIGHT, PALE, false);
    let mut at = x + whole + 9.0;
    for (pen, note) in notes {
        svg.write(at, y + STRIP_HEIGHT, pen, &note);
        at += pen.width(&note) + 7.0;
    }
}

/// The runs of data bytes that are not zero.
fn held(element: &[u8]) -> Vec<(i64, i64)> {
    let mut runs: Vec<(i64, i64)> = Vec::new();
    for (offset, &byte) in element.iter().enumerate().skip(FIRST_OFFSET as usize) {
        let offset = offset as i64;
        if byte == 0 {
            continue;
        }
        match runs.last_mut() {
            Some(run) if run.1 == offset => run.1 = offset + 1,
            _ => runs.push((offset, offset + 1)),
        }
    }
    runs
}
