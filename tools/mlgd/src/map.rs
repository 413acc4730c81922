//! `mlgd map`: a results table as a picture, a cell for each block, coloured by how it ended.

mod blocks;
mod colours;

use crate::amount::{counted, thousands};
use crate::arguments::{asks_help, Arguments, Known};
use crate::fault::Fault;
use crate::lines::shown;
use crate::output::{keep_apart, print, whole};
use crate::report::outcomes;
use crate::status::Status;
use crate::svg::Picture;
use blocks::{Block, Blocks, End};
use colours::{bits_changed, Kinds};
use std::fmt::Write;
use std::path::Path;

pub const USAGE: &str = "\
mlgd map R.csv [--out MAP.svg] [--columns N]

Draws a results table of mlgd decode as an SVG picture, for a browser: a cell for each block,
coloured by its outcome and by its column changed (bits with a level that ended different), with a
legend. Within or beyond the half is by wrong_bits, which counts all. - is standard input for R.

--out MAP.svg     the picture; standard output without it
--columns N       N cells in a row (1 to 1000); without it the tool chooses
";

const KNOWN: Known = Known {
    command: "mlgd map",
    values: &["--out", "--columns"],
    flags: &[],
    files: 1,
};

/// Up to so many cells, each is a shape of its own with a tooltip; beyond, each row has one.
const SINGLE_CELLS: usize = blocks::WITH_REASON;
/// More blocks than these share cells.
const MOST_CELLS: usize = 100_000;
/// Columns that are easy to count by.
const COLUMNS: [usize; 13] = [10, 20, 25, 40, 50, 80, 100, 150, 200, 250, 300, 400, 500];
const LEFT: f64 = 70.0;
const TOP: f64 = 80.0;
const LEGEND_WIDTH: f64 = 290.0;
const LEGEND_LINE: f64 = 20.0;

/// Under the legend.
const NOTES: [&str; 8] = [
    "Changed are bits with a level: samples of",
    "level 0 are undecided, and not counted.",
    "The half is γ / 2 bits, with a level or",
    "without. Within it no other codeword is so",
    "near: it is the block sent, unless more bits",
    "than that arrived wrong. Beyond it: to be",
    "looked at. The word is a codeword, often",
    "the right one, but nothing proves it.",
];

pub fn run(words: &[String]) -> Result<Status, Fault> {
    if asks_help(words) {
        return print(USAGE).map(|()| Status::Done);
    }
    let arguments = Arguments::read(words, &KNOWN)?;
    let file = arguments.needed_file("the results table's name")?;
    let columns = Some(arguments.number("--columns", 1..=1_000, 0)?).filter(|&n| n > 0);
    let out = arguments.value("--out");
    keep_apart(&[out], &[Some(file)])?;
    let blocks = Blocks::open(file)?;
    whole(out, &draw(&title_of(file), &blocks, columns))?;
    Ok(Status::Done)
}

/// What the picture calls the table: the file's name without its folder.
fn title_of(file: &str) -> String {
    let name = Path::new(shown(file)).file_name();
    name.unwrap_or_default().to_string_lossy().into_owned()
}

/// Where the cells stand.
struct Layout {
    /// How many blocks share a cell.
    fold: usize,
    cells: usize,
    columns: usize,
    /// The length of a cell's side.
    side: f64,
}

impl Layout {
    fn of(blocks: usize, columns: Option<usize>) -> Layout {
        let fold = blocks.div_ceil(MOST_CELLS).max(1);
        let cells = blocks.div_ceil(fold);
        let chosen = COLUMNS.into_iter().find(|c| c * c >= cells);
        let columns = columns.or(chosen).unwrap_or(500);
        let side = (900 / columns).clamp(1, 24) as f64;
        Layout {
            fold,
            cells,
            columns,
            side,
        }
    }

    fn rows(&self) -> usize {
        self.cells.div_ceil(self.columns)
    }

    /// Column and row of a cell.
    fn place(&self, cell: usize) -> (usize, usize) {
        (cell % self.columns, cell / self.columns)
    }

    fn width(&self) -> f64 {
        self.columns.min(self.cells.max(1)) as f64 * self.side
    }

    fn height(&self) -> f64 {
        self.rows() as f64 * self.side
    }

    /// Every how many rows there is a block number.
    fn labelled(&self) -> usize {
        let steps = [1, 2, 5, 10, 20, 50, 100];
        let wide = |step: &usize| *step as f64 * self.side >= 14.0;
        steps.into_iter().find(wide).unwrap_or(200)
    }
}

/// The picture of a table's blocks.
fn draw(name: &str, blocks: &Blocks, columns: Option<usize>) -> String {
    let layout = Layout::of(blocks.all.len(), columns);
    let kinds = Kinds::of(&blocks.all);
    let counts = kinds.counts(&blocks.all);
    let legend_x = LEFT + layout.width().max(200.0) + 30.0;
    let legend_height = (counts.len() + 1) as f64 * LEGEND_LINE + NOTES.len() as f64 * 16.0 + 12.0;
    let width = (legend_x + LEGEND_WIDTH).max(720.0);
    let height = TOP + layout.height().max(legend_height) + 20.0;
    let mut picture = Picture::new(width, height);
    let title = format!("{name}: {}", counted(blocks.all.len(), "block"));
    picture.text("h", (20.0, 28.0), &title);
    picture.text("", (20.0, 49.0), &totals(&counts));
    draw_cells(&mut picture, blocks, &kinds, &layout);
    draw_row_numbers(&mut picture, &blocks.all, &layout);
    draw_legend(&mut picture, legend_x, &kinds, &counts);
    if layout.fold > 1 {
        let note = format!(
            "A cell is {} blocks, coloured by the worst of them.",
            layout.fold
        );
        picture.text("g", (20.0, 66.0), &note);
    }
    picture.finish(&title, &style(&kinds, &layout))
}

/// The totals of the kinds, all shades within the half in one.
fn totals(counts: &[u64]) -> String {
    let (within, others) = counts.split_at(counts.len() - 3);
    outcomes([within.iter().sum(), others[0], others[1], others[2]])
}

fn style(kinds: &Kinds, layout: &Layout) -> String {
    let mut style = String::from(
        "text { font: 13px sans-serif; fill: #222 }\n\
         .h { font-size: 17px; font-weight: bold }\n\
         .g { font-size: 11px; fill: #666 }\n\
         .e { font-size: 11px; fill: #666; text-anchor: end }\n\
         .c { text-anchor: end }\n\
         .n { font-size: 10px; text-anchor: middle; pointer-events: none }\n\
         .i { fill: #fff }\n\
         .t { stroke: #000; stroke-opacity: 0; stroke-width: 1 }\n",
    );
    let width = if layout.cells <= SINGLE_CELLS {
        "0.9"
    } else {
        "1"
    };
    writeln!(style, ".m path {{ stroke-width: {width} }}").expect("writing to a string");
    for kind in 0..kinds.count() {
        let colour = kinds.colour(kind);
        writeln!(style, ".k{kind} {{ stroke: {colour}; fill: {colour} }}")
            .expect("writing to a string");
    }
    style
}

/// The cells, each a short thick line, in units of a cell's side.
fn draw_cells(picture: &mut Picture, blocks: &Blocks, kinds: &Kinds, layout: &Layout) {
    let at = (LEFT, TOP + layout.side / 2.0);
    picture.group("m", at, layout.side, |picture| {
        if layout.cells <= SINGLE_CELLS {
            draw_single_cells(picture, blocks, kinds, layout);
        } else {
            draw_runs(picture, &blocks.all, kinds, layout);
            draw_row_tooltips(picture, &blocks.all, layout);
        }
    });
    if layout.side >= 20.0 && layout.cells <= SINGLE_CELLS {
        draw_numbers(picture, &blocks.all, kinds, layout);
    }
}

/// A shape with a tooltip for each block, by kinds.
fn draw_single_cells(picture: &mut Picture, blocks: &Blocks, kinds: &Kinds, layout: &Layout) {
    for kind in 0..kinds.count() {
        picture.classed(&format!("k{kind}"), |picture| {
            for (cell, block) in blocks.all.iter().enumerate() {
                if kinds.kind(block.end) == kind {
                    let (column, row) = layout.place(cell);
                    let tooltip = tooltip(block, blocks.reason(cell));
                    picture.path("", &format!("M{column} {row}h.9"), &tooltip);
                }
            }
        });
    }
}

/// `block 17: decoded, 2 bits changed`.
fn tooltip(block: &Block, reason: &str) -> String {
    let changed = |count| {
        let changed = bits_changed(count);
        match block.undecided {
            0 => changed,
            more => format!(
                "{changed}, {} turned",
                counted(more as usize, "undecided bit")
            ),
        }
    };
    let end = match block.end {
        End::Within(count) => format!("decoded, {}", changed(count)),
        End::Beyond(count) => format!("decoded, {}, beyond the half", changed(count)),
        End::Failed(1) => "failed, 1 check fails".into(),
        End::Failed(failing) => format!("failed, {} fail", counted(failing as usize, "check")),
        End::Refused if reason.is_empty() => "refused".into(),
        End::Refused => format!("refused, {reason}"),
    };
    format!("block {}: {end}", block.number)
}

/// In each cell how many bits were changed, a cross for failed and a stroke for refused ones.
fn draw_numbers(picture: &mut Picture, blocks: &[Block], kinds: &Kinds, layout: &Layout) {
    for (cell, block) in blocks.iter().enumerate() {
        let (column, row) = layout.place(cell);
        let text = match block.end {
            End::Within(count) | End::Beyond(count) => count.to_string(),
            End::Failed(_) => "×".into(),
            End::Refused => "–".into(),
        };
        let dark = kinds.is_dark(kinds.kind(block.end));
        let x = LEFT + (column as f64 + 0.45) * layout.side;
        let y = TOP + (row as f64 + 0.5) * layout.side + 3.5;
        picture.text(if dark { "n i" } else { "n" }, (x, y), &text);
    }
}

/// One path for each kind, with a line for each run of equal cells.
fn draw_runs(picture: &mut Picture, blocks: &[Block], kinds: &Kinds, layout: &Layout) {
    let mut paths = vec![Pen::default(); kinds.count()];
    let worst = |cell: &[Block]| cell.iter().map(|block| kinds.kind(block.end)).max();
    let cells: Vec<usize> = blocks.chunks(layout.fold).filter_map(worst).collect();
    for (row, cells) in cells.chunks(layout.columns).enumerate() {
        let mut column = 0;
        for run in cells.chunk_by(|one, next| one == next) {
            paths[run[0]].line(column, row, run.len());
            column += run.len();
        }
    }
    for (kind, path) in paths.iter().enumerate() {
        if !path.data.is_empty() {
            picture.path(&format!("k{kind}"), &path.data, "");
        }
    }
}

/// A path of level lines, with the place where it ends.
#[derive(Clone, Default)]
struct Pen {
    data: String,
    column: usize,
    row: usize,
}

impl Pen {
    /// A line to the right. A move on the same row is written from the last place on.
    fn line(&mut self, column: usize, row: usize, length: usize) {
        let data = &mut self.data;
        let move_ = if data.is_empty() || row != self.row {
            write!(data, "M{column} {row}")
        } else {
            write!(data, "m{} 0", column - self.column)
        };
        move_
            .and_then(|()| write!(data, "h{length}"))
            .expect("writing to a string");
        (self.column, self.row) = (column + length, row);
    }
}

/// Over each row an unseen line with a tooltip of its totals.
fn draw_row_tooltips(picture: &mut Picture, blocks: &[Block], layout: &Layout) {
    picture.classed("t", |picture| {
        for (row, blocks) in blocks.chunks(layout.columns * layout.fold).enumerate() {
            let mut counts = [0; 4];
            for block in blocks {
                counts[match block.end {
                    End::Within(_) => 0,
                    End::Beyond(_) => 1,
                    End::Failed(_) => 2,
                    End::Refused => 3,
                }] += 1;
            }
            let (first, last) = (blocks[0].number, blocks[blocks.len() - 1].number);
            let tooltip = format!("blocks {first} to {last}: {}", totals(&counts));
            let length = blocks.len().div_ceil(layout.fold);
            picture.path("", &format!("M0 {row}h{length}"), &tooltip);
        }
    });
}

/// The number of a row's first block, before some of the rows.
fn draw_row_numbers(picture: &mut Picture, blocks: &[Block], layout: &Layout) {
    let step = layout.labelled();
    for row in (0..layout.rows()).step_by(step) {
        let first = blocks[row * layout.columns * layout.fold].number;
        let middle = TOP + (row as f64 + 0.5) * layout.side;
        picture.text("e", (LEFT - 8.0, middle + 4.0), &first.to_string());
    }
}

/// The kinds with their colours and counts, and what they mean.
fn draw_legend(picture: &mut Picture, x: f64, kinds: &Kinds, counts: &[u64]) {
    let mut y = TOP + 12.0;
    picture.text("", (x, y), "decoded within the half:");
    for (kind, &count) in counts.iter().enumerate() {
        y += LEGEND_LINE;
        if kind == kinds.within.len() {
            y += 6.0;
        }
        picture.rectangle(&format!("k{kind}"), (x, y - 11.0), (12.0, 12.0));
        picture.text("", (x + 22.0, y), &kinds.name(kind));
        picture.text("c", (x + LEGEND_WIDTH - 20.0, y), &thousands(count));
    }
    y += 6.0;
    for note in NOTES {
        y += 16.0;
        picture.text("g", (x, y), note);
    }
}

#[cfg(test)]
mod tests;
