//! A picture of a table, for a person.

mod map;
mod records;
mod tree;

use std::path::Path;

use filebox::{Table, RECORD_BYTES};

use crate::kept::Wrong;
use crate::open::{look, wrong};
use crate::tools::print;

/// Draw the table in this file: what mending would leave, as trees; what is there, as a map.
pub fn show(path: &Path) -> Result<u8, String> {
    let table = look(path)?;
    let mut mended = Table::of(table.clone());
    if let Err(refused) = mended.mend() {
        let number = refused.answer().number;
        return Err(wrong(path, &Wrong::refused(number, &table)));
    }
    let mended = mended.into_bytes();
    let records = table.len() / RECORD_BYTES;
    let head = format!("{}: {records} records\n\n", path.display());
    let picture = head + &tree::trees(&mended) + &map::map(&table, &mended);
    print(picture.as_bytes())?;
    Ok(0)
}
