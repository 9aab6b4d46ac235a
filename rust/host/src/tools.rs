//! The commands that do one thing to a table's file: `ask`, `job`, `mend` and `sweep`.

use std::fs::File;
use std::io::{stdout, Read, Write};
use std::path::{Path, PathBuf};

use filebox::{NotGreen, Sheet, LONGEST_TEXT, RECORD_BYTES};

use crate::desk::say;
use crate::disk::TableFile;
use crate::kept::Kept;
use crate::open;
use crate::serve;
use crate::serving::mending;
use crate::steps::{Job, Lit, Request};

/// The bytes that are read of a sheet's file: more than a job or a WRS takes.
const MOST_READ: u64 = 1 << 20;

/// The table in this file; what mending cleared is said, if it did.
fn opened(path: &Path) -> Result<Kept<TableFile>, String> {
    let (kept, mended) = open::open(path)?;
    if mended.stores > 0 {
        say(&mending(path, &kept, mended));
    }
    Ok(kept)
}

/// One request: its answer on standard output, a refusal in words on standard error.
pub fn ask(path: &Path, user: u32, line: &str, text: Option<&Path>) -> Result<u8, String> {
    let text = text.map_or(Ok(Vec::new()), sheet)?;
    let mut reply = vec![0; LONGEST_TEXT];
    let request = Request {
        user,
        line: line.as_bytes(),
        text: &text,
    };
    let answer = opened(path)?.request(request, &mut reply);
    let answer = answer.map_err(|wrong| open::wrong(path, &wrong))?;
    print(&serve::printed(answer, &reply))?;
    match answer.granted() {
        Ok(_) => Ok(0),
        Err(refused) => {
            say(&refused.to_string());
            Ok(1)
        }
    }
}

/// The lamp: green 0, red 1, refused 2.
pub fn job(path: &Path, user: u32, chain: &str, files: &[PathBuf]) -> Result<u8, String> {
    let names: Vec<String> = files.iter().map(|file| name(file)).collect();
    let texts: Vec<Vec<u8>> = files
        .iter()
        .map(|file| sheet(file))
        .collect::<Result<_, _>>()?;
    let pairs = names.iter().zip(&texts);
    let sheets: Vec<Sheet> = pairs.map(|(name, text)| Sheet { name, text }).collect();
    let job = Job {
        user,
        chain,
        sheets: &sheets,
    };
    let lit = opened(path)?
        .job(job)
        .map_err(|wrong| open::wrong(path, &wrong))?;
    let (light, status) = light(&lit, &names);
    print(format!("{light}\n").as_bytes())?;
    Ok(status)
}

/// A light in words, and its status.
fn light(lit: &Lit, names: &[String]) -> (String, u8) {
    let sheets = names.len();
    let named = |sheet: usize| sheet.checked_sub(1).and_then(|at| names.get(at));
    let with_name = |what: String, sheet| match named(sheet) {
        Some(name) => format!("{what} ({name})"),
        None => what,
    };
    match lit {
        Ok(green) => (
            format!(
                "green: sheets filed and read back: {sheets}, stores: {}",
                green.stores
            ),
            0,
        ),
        Err(not @ NotGreen::Red(red)) => (with_name(not.to_string(), red.sheet as usize), 1),
        Err(not @ NotGreen::Refused { sheet, .. }) => {
            (with_name(not.to_string(), *sheet as usize), 2)
        }
        Err(NotGreen::Unasked { sheet, why }) => (
            with_name(format!("refused: sheet {sheet}: {why}"), *sheet),
            2,
        ),
    }
}

/// The name of the sheet in a file: the file's own, in capital letters.
fn name(file: &Path) -> String {
    let name = file.file_name().unwrap_or_default();
    name.to_string_lossy().to_ascii_uppercase()
}

/// The bytes of a sheet's file; of one that is longer than any text, enough to be refused.
fn sheet(file: &Path) -> Result<Vec<u8>, String> {
    let mut bytes = Vec::new();
    let opened = File::open(file);
    let read = opened.and_then(|opened| opened.take(MOST_READ).read_to_end(&mut bytes));
    read.map_err(|error| format!("{}: the sheet cannot be read: {error}", file.display()))?;
    Ok(bytes)
}

/// Mend a table, and say what that did.
pub fn mend(path: &Path) -> Result<u8, String> {
    let (kept, mended) = open::open(path)?;
    print(format!("{}\n", mending(path, &kept, mended)).as_bytes())?;
    Ok(0)
}

/// Sweep a table, and say how many records came back.
pub fn sweep(path: &Path) -> Result<u8, String> {
    let mut kept = opened(path)?;
    let before = free(kept.table());
    kept.sweep().map_err(|wrong| open::wrong(path, &wrong))?;
    let records = kept.table().len() / RECORD_BYTES;
    let said = match free(kept.table()) - before {
        0 => "nothing to sweep".to_string(),
        1 => "swept: 1 record came back".to_string(),
        back => format!("swept: {back} records came back"),
    };
    print(format!("{}: {records} records, {said}\n", path.display()).as_bytes())?;
    Ok(0)
}

/// How many records are free.
fn free(table: &[u8]) -> usize {
    table.chunks(RECORD_BYTES).filter(|r| r[0] == 0).count()
}

/// Write to standard output.
pub fn print(bytes: &[u8]) -> Result<(), String> {
    let mut output = stdout().lock();
    let written = output.write_all(bytes).and_then(|()| output.flush());
    written.map_err(|error| format!("standard output cannot be written: {error}"))
}
