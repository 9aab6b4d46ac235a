//! The host: it mends its table, as the first thing after the power is back, then serves requests until the pipe ends.

use std::fs::File;
use std::io::{self, stdin, stdout, BufReader};
use std::os::fd::AsFd;
use std::path::Path;

use crate::kept::Kept;
use crate::wire::{send, Asked};

/// Serve the table in this file: requests from standard input, answers to standard output, mending's first.
pub fn serve(path: &Path) -> io::Result<()> {
    let mut kept = Kept::open(path)?;
    let mut requests = BufReader::new(stdin().lock());
    // without a buffer: an answer goes out when it is given
    let mut answers = File::from(stdout().as_fd().try_clone_to_owned()?);
    let answer = kept.call(filebox::mend)?;
    send(&mut answers, answer)?;
    while let Some(Asked { user, line, text }) = Asked::receive(&mut requests)? {
        let answer = kept.call(|table, index, stop| {
            let mut reply = vec![0; filebox::LONGEST_TEXT];
            filebox::request(table, index, &line, &text, &mut reply, user, stop)
        })?;
        send(&mut answers, answer)?;
    }
    Ok(())
}
