//! The crate's layout calls alone, on inputs that are decoded already. The benchmark times
//! these: reading the house format, the checks and writing the sheet are not in them.

use crate::call::Sheet;
use crate::checks;
use crate::format::{self, Contents, Job, Line, Refusal, Rules};
use crate::render::text_renderer::door;
use std::str;

/// A job with its texts as strings.
pub struct Block<'a>(Job<&'a str>);

impl<'a> Block<'a> {
    /// Reads a job that passes refusals 1 to 4.
    pub fn read(bytes: &'a [u8]) -> Result<Block<'a>, Refusal> {
        let job = checks::job(bytes)?;
        Ok(Block(job.map(|text| {
            str::from_utf8(text).expect("refusal 3 came before")
        })))
    }

    /// The block's lines.
    pub fn run(&self) -> Result<Vec<Line<String>>, Refusal> {
        door::wrapped(&self.0).map_err(|_| Refusal::TooNarrow)
    }
}

/// `append_columns_with_borders` with sheet and cells in renderers of the crate.
pub struct Columns(door::Columns);

impl Columns {
    /// Reads a sheet and cells that pass refusal 1; the others are not asked.
    pub fn read(
        sheet: &Sheet,
        old: &[u8],
        cells: &[u8],
        collapse: bool,
    ) -> Result<Columns, Refusal> {
        let old = format::read_sheet(old, Rules::STORED)?;
        let cells = format::read_cells(cells, Rules::STORED)?;
        Ok(Columns(door::Columns::new(sheet, &old, &cells, collapse)))
    }

    /// The sheet's lines with the row, and what hangs on; the call consumes its renderers.
    pub fn run(self) -> Contents<String> {
        self.0.run()
    }
}
