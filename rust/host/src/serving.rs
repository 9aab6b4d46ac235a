//! The command `serve`: a table's file, and standard input or fixtures.

use std::fs::File;
use std::io::{stdin, stdout};
use std::net::TcpListener;
use std::path::{Path, PathBuf};
use std::sync::{Arc, Mutex};

use filebox::{Answer, RECORD_BYTES};

use crate::desk::{say, Desk, Place};
use crate::disk::TableFile;
use crate::fixtures::{serve_all, Fixture};
use crate::kept::Kept;
use crate::line::Unended;
use crate::open;
use crate::serve;

/// The user of standard input, where nothing else is said.
const USER: u32 = 1;

/// The options of `serve`.
#[derive(Debug, Default)]
pub struct Served {
    /// The records of a table that is made.
    pub records: Option<usize>,
    /// The user of standard input.
    pub user: Option<u32>,
    /// Where every request is written.
    pub journal: Option<PathBuf>,
    /// Where each fixture is listened to, and its user.
    pub fixtures: Vec<(String, u32)>,
}

/// Serve a table: standard input, or fixtures.
pub fn serve(path: &Path, served: &Served) -> Result<u8, String> {
    let (kept, mended, made) = open::make_or_open(path, served.records)?;
    if made {
        say(&format!("{}: a new table", path.display()));
    }
    say(&mending(path, &kept, mended));
    let journal = served.journal.as_deref().map(journal).transpose()?;
    let desk = Mutex::new(Desk::new(path.display().to_string(), kept, journal));
    match served.fixtures.is_empty() {
        true => standard_input(&desk, served.user.unwrap_or(USER)),
        false => {
            serve_all(&Arc::new(desk), listeners(&served.fixtures)?);
            Err("no fixture is listened to any longer".to_string())
        }
    }
}

/// What mending did.
pub fn mending(path: &Path, kept: &Kept<TableFile>, mended: Answer) -> String {
    let records = kept.table().len() / RECORD_BYTES;
    let path = path.display();
    match mended.stores {
        0 => format!("{path}: {records} records, nothing to mend"),
        1 => format!("{path}: {records} records, mended: 1 record, cleared or counted anew"),
        stores => {
            format!("{path}: {records} records, mended: {stores} records, cleared or counted anew")
        }
    }
}

fn journal(path: &Path) -> Result<File, String> {
    let opened = File::options().append(true).create(true).open(path);
    opened.map_err(|error| format!("{}: the journal cannot be opened: {error}", path.display()))
}

fn standard_input(desk: &Mutex<Desk<TableFile>>, user: u32) -> Result<u8, String> {
    let from = Place { fixture: 0, user };
    let (mut input, mut output) = (stdin().lock(), stdout().lock());
    let ended = serve::serve(desk, from, Unended::Line, &mut input, &mut output);
    ended.map(|()| 0).map_err(|stopped| stopped.to_string())
}

/// Listen at every address, and say so.
fn listeners(fixtures: &[(String, u32)]) -> Result<Vec<Fixture>, String> {
    let listen = |(number, (address, user)): (usize, &(String, u32))| {
        let cannot = |error| {
            format!("{address}: cannot be listened at: {error}. Is another program there, or is it no address of this machine?")
        };
        let listener = TcpListener::bind(address).map_err(cannot)?;
        let at = listener.local_addr().map_err(cannot)?;
        say(&format!("fixture {}: {at}, user {user}", number + 1));
        let place = Place {
            fixture: number + 1,
            user: *user,
        };
        Ok(Fixture { listener, place })
    };
    fixtures.iter().enumerate().map(listen).collect()
}
