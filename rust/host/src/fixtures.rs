//! Fixtures: a listener each, whose user number is fixed by where the line comes from; a thread a connection.

use std::io::{self, BufReader, Write};
use std::net::{Shutdown, TcpListener, TcpStream};
use std::sync::{Arc, Mutex, PoisonError};
use std::thread;
use std::time::Duration;

use crate::desk::{say, Desk, Place};
use crate::disk::Disk;
use crate::line::Unended;
use crate::serve::{serve, Stopped};

/// Connections that one fixture may have open. One more closes its oldest, so that a fixture whose line was cut without a
/// word is never shut out by what it left open.
const MOST_CONNECTIONS: usize = 8;
/// How long to wait where the machine has no room for another connection.
const PAUSE: Duration = Duration::from_millis(100);

/// A fixture: where it is listened to, and for whom its lines are done.
pub struct Fixture {
    /// Its listener.
    pub listener: TcpListener,
    /// Its number, and its user.
    pub place: Place,
}

/// The open connections of one fixture, the oldest first, each with its number.
#[derive(Default)]
struct Open(Mutex<Vec<(u64, TcpStream)>>);

impl Open {
    /// Note a connection; the oldest is closed if there is one too many.
    fn enter(&self, number: u64, stream: TcpStream) {
        let mut open = self.0.lock().unwrap_or_else(PoisonError::into_inner);
        if open.len() == MOST_CONNECTIONS {
            close(&open.remove(0).1);
        }
        open.push((number, stream));
    }

    fn leave(&self, number: u64) {
        let mut open = self.0.lock().unwrap_or_else(PoisonError::into_inner);
        open.retain(|(other, _)| *other != number);
    }
}

/// Close a connection for both sides. One that is gone already is closed.
fn close(stream: &TcpStream) {
    let _ = stream.shutdown(Shutdown::Both);
}

/// Serve these fixtures for ever, each by a thread of its own.
pub fn serve_all<D: Disk + Send + 'static>(desk: &Arc<Mutex<Desk<D>>>, fixtures: Vec<Fixture>) {
    let listening = |fixture: Fixture| {
        let desk = Arc::clone(desk);
        thread::spawn(move || listen(&desk, &fixture))
    };
    let threads: Vec<_> = fixtures.into_iter().map(listening).collect();
    for thread in threads {
        // a listener ends by no panic of its connections; if it does, the others go on
        let _ = thread.join();
    }
}

/// Take the connections of one fixture, for ever.
fn listen<D: Disk + Send + 'static>(desk: &Arc<Mutex<Desk<D>>>, fixture: &Fixture) {
    let open = Arc::new(Open::default());
    for number in 0.. {
        let accepted = fixture.listener.accept();
        let begun =
            accepted.and_then(|(stream, _)| begin(desk, fixture.place, &open, number, stream));
        if let Err(error) = begun {
            say(&format!(
                "fixture {}: no connection: {error}",
                fixture.place.fixture
            ));
            thread::sleep(PAUSE);
        }
    }
}

/// Begin a connection: a thread that serves it until it ends.
fn begin<D: Disk + Send + 'static>(
    desk: &Arc<Mutex<Desk<D>>>,
    place: Place,
    open: &Arc<Open>,
    number: u64,
    stream: TcpStream,
) -> io::Result<()> {
    stream.set_nodelay(true)?;
    let noted = stream.try_clone()?;
    let (desk, of_thread) = (Arc::clone(desk), Arc::clone(open));
    open.enter(number, noted);
    let spawned = thread::Builder::new().spawn(move || {
        connection(&desk, place, &stream);
        close(&stream);
        of_thread.leave(number);
    });
    spawned.map(drop).inspect_err(|_| open.leave(number))
}

/// Serve one connection. Where a request has no answer, that is said here and to whoever asked, and the connection ends.
fn connection<D: Disk>(desk: &Mutex<Desk<D>>, place: Place, stream: &TcpStream) {
    let mut input = BufReader::new(stream);
    let mut output = stream;
    let served = serve(desk, place, Unended::Nothing, &mut input, &mut output);
    if let Err(stopped @ Stopped::NoAnswer(_)) = served {
        say(&format!("fixture {}: {stopped}", place.fixture));
        let _ = writeln!(output, "no answer: {stopped}");
    }
}
