//! The picture of a survey: a grid of cells, each a run of sectors.

use std::fmt::Write;

use crate::runs::Kind;
use crate::size::{grouped, readable};
use crate::superblock::Superblock;
use crate::survey::Report;

/// The most cells that are drawn.
const CELLS: u64 = 4096;

/// The cells of a full row.
const COLUMNS: u64 = 64;

/// The side of a cell with the gap behind it.
const STEP: u64 = 12;

const MARGIN: u64 = 16;

/// Where the grid begins, below title and legend.
const GRID_TOP: u64 = 112;

/// Colours that differ in lightness too, and a mark for each kind, so that they
/// are told apart without seeing the hue. The ground follows the viewer's choice.
const STYLE: &str = "\
<style>
.ground{fill:#ffffff}.ink{fill:#1b1f24}
text{font:13px system-ui,sans-serif}.title{font-size:16px;font-weight:600}
.whole{fill:#009e73}.doubtful{fill:#f0b400}.clashing{fill:#7b3fa0}.lost{fill:#c1121f}
.mark{stroke:#ffffff;stroke-width:1.6;fill:none}.dot{fill:#1b1f24}
@media (prefers-color-scheme: dark){.ground{fill:#15181c}.ink{fill:#e8eaed}}
</style>
<defs>
<pattern id=\"cells\" width=\"12\" height=\"12\" patternUnits=\"userSpaceOnUse\">
<rect class=\"whole\" width=\"10\" height=\"10\" rx=\"1.5\"/></pattern>
<g id=\"whole\"><rect class=\"whole\" width=\"10\" height=\"10\" rx=\"1.5\"/></g>
<g id=\"doubtful\"><rect class=\"doubtful\" width=\"10\" height=\"10\" rx=\"1.5\"/>\
<circle class=\"dot\" cx=\"5\" cy=\"5\" r=\"1.6\"/></g>
<g id=\"clashing\"><rect class=\"clashing\" width=\"10\" height=\"10\" rx=\"1.5\"/>\
<path class=\"mark\" d=\"M2 3.5h6M2 6.5h6\"/></g>
<g id=\"lost\"><rect class=\"lost\" width=\"10\" height=\"10\" rx=\"1.5\"/>\
<path class=\"mark\" d=\"M2.5 2.5l5 5M7.5 2.5l-5 5\"/></g>
</defs>
";

/// How the sectors are divided into cells.
struct Grid {
    sectors: u64,
    /// The sectors of each cell but the last.
    run: u64,
}

impl Grid {
    fn new(sectors: u64) -> Grid {
        let run = sectors.div_ceil(CELLS);
        Grid { sectors, run }
    }

    fn cells(&self) -> u64 {
        self.sectors.div_ceil(self.run)
    }

    fn columns(&self) -> u64 {
        self.cells().min(COLUMNS)
    }

    fn rows(&self) -> u64 {
        self.cells().div_ceil(COLUMNS)
    }

    /// The first and the last sector of a cell.
    fn sectors_of(&self, cell: u64) -> (u64, u64) {
        let first = cell * self.run;
        (first, (first + self.run).min(self.sectors) - 1)
    }
}

/// How many sectors of a cell are not whole: lost, clashing, doubtful.
type Counts = [u64; 3];

pub fn draw(superblock: &Superblock, report: &Report) -> String {
    let grid = Grid::new(superblock.shape.sectors);
    let width = 2 * MARGIN + COLUMNS * STEP;
    let height = GRID_TOP + grid.rows() * STEP + MARGIN;
    let title = format!("Disk {}", superblock.uuid);
    let mut svg = format!(
        "<svg xmlns=\"http://www.w3.org/2000/svg\" width=\"{width}\" height=\"{height}\" \
         viewBox=\"0 0 {width} {height}\" role=\"img\">\n<title>{title}</title>\n{STYLE}\
         <rect class=\"ground\" width=\"{width}\" height=\"{height}\"/>\n"
    );
    head(&mut svg, &title, superblock, report, &grid);
    legend(&mut svg, report);
    whole_cells(&mut svg, &grid);
    other_cells(&mut svg, &grid, report);
    svg.push_str("</svg>\n");
    svg
}

fn put(svg: &mut String, line: std::fmt::Arguments) {
    svg.write_fmt(line).expect("a string takes all");
    svg.push('\n');
}

fn head(svg: &mut String, title: &str, superblock: &Superblock, report: &Report, grid: &Grid) {
    let shape = &superblock.shape;
    put(
        svg,
        format_args!("<text class=\"ink title\" x=\"{MARGIN}\" y=\"30\">{title}</text>"),
    );
    put(
        svg,
        format_args!(
            "<text class=\"ink\" x=\"{MARGIN}\" y=\"52\">{}, {} sectors of {} bytes; health {} of \
             1,000; {}</text>",
            readable(shape.bytes()),
            grouped(shape.sectors),
            grouped(shape.sector_bytes as u64),
            grouped(report.health()),
            match grid.run {
                1 => "a cell is a sector".to_string(),
                run => format!("a cell is {} sectors, and shows their worst", grouped(run)),
            }
        ),
    );
}

fn legend(svg: &mut String, report: &Report) {
    let entries = [
        ("whole", report.whole),
        ("doubtful", report.doubtful),
        ("clashing", report.clashing),
        ("lost", report.lost),
    ];
    for ((name, count), column) in entries.into_iter().zip(0..) {
        let x = MARGIN + column * 192;
        put(
            svg,
            format_args!(
                "<use href=\"#{name}\" x=\"{x}\" y=\"76\"/>\
                 <text class=\"ink\" x=\"{}\" y=\"85\">{name}: {}</text>",
                x + 16,
                grouped(count)
            ),
        );
    }
}

/// All cells as whole ones: the full rows, and then what is left. The pattern
/// repeats from the grid's corner.
fn whole_cells(svg: &mut String, grid: &Grid) {
    put(
        svg,
        format_args!("<g transform=\"translate({MARGIN} {GRID_TOP})\">"),
    );
    let (rows, rest) = (grid.cells() / COLUMNS, grid.cells() % COLUMNS);
    for (y, rows, columns) in [(0, rows, grid.columns()), (rows, 1, rest)] {
        if rows * columns > 0 {
            put(
                svg,
                format_args!(
                    "<rect fill=\"url(#cells)\" y=\"{}\" width=\"{}\" height=\"{}\"/>",
                    y * STEP,
                    columns * STEP,
                    rows * STEP
                ),
            );
        }
    }
}

/// The cells that are not whole, each with what it has.
fn other_cells(svg: &mut String, grid: &Grid, report: &Report) {
    for (cell, counts) in (0..).zip(counts(grid, report)) {
        let Some(worst) = counts.iter().position(|&count| count > 0) else {
            continue;
        };
        let names = ["lost", "clashing", "doubtful"];
        let each = counts.iter().zip(names).filter(|(count, _)| **count > 0);
        let each = each.map(|(count, name)| format!("{} {name}", grouped(*count)));
        let sectors = match grid.sectors_of(cell) {
            (first, last) if first == last => format!("sector {first}"),
            (first, last) => format!("sectors {first} to {last}"),
        };
        put(
            svg,
            format_args!(
                "<use href=\"#{}\" x=\"{}\" y=\"{}\"><title>{sectors}: {}</title></use>",
                names[worst],
                cell % COLUMNS * STEP,
                cell / COLUMNS * STEP,
                each.collect::<Vec<_>>().join(", ")
            ),
        );
    }
    svg.push_str("</g>\n");
}

fn counts(grid: &Grid, report: &Report) -> Vec<Counts> {
    let mut counts = vec![Counts::default(); grid.cells() as usize];
    for run in report.runs() {
        let kind = match run.kind {
            Kind::Lost => 0,
            Kind::Clashing => 1,
            Kind::Doubtful(_) => 2,
        };
        for cell in run.first / grid.run..=run.last / grid.run {
            let (first, last) = grid.sectors_of(cell);
            counts[cell as usize][kind] += run.last.min(last) - run.first.max(first) + 1;
        }
    }
    counts
}

#[cfg(test)]
mod tests {
    use super::*;

    #[test]
    fn a_grid_has_every_sector_once() {
        for sectors in [1, 63, 64, 65, 4095, 4096, 4097, 8192, 10_000_019] {
            let grid = Grid::new(sectors);
            assert!(grid.cells() <= CELLS);
            let mut next = 0;
            for cell in 0..grid.cells() {
                let (first, last) = grid.sectors_of(cell);
                assert!(first == next && last >= first);
                next = last + 1;
            }
            assert_eq!(next, sectors);
        }
    }
}
