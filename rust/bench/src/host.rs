//! The host: requests a second through it, on a file in memory and on a disk, for one client and for fourteen; beside it the
//! same work with a flush after every store.

use std::fs::{self, File};
use std::io::{self, BufRead, BufReader, Read, Write};
use std::net::{SocketAddr, TcpListener, TcpStream};
use std::path::{Path, PathBuf};
use std::sync::atomic::{AtomicBool, AtomicU64, Ordering};
use std::sync::{Arc, Mutex};
use std::thread::{self, sleep};
use std::time::{Duration, Instant};

use host::desk::{Desk, Place};
use host::fixtures::{serve_all, Fixture};
use host::{Disk, Kept, TableFile};

const RECORDS: usize = 1_024;
/// The sheet that is filed in each turn.
const BYTES: usize = 240;
/// How long the clients work in one turn of the bench.
const TURN_TIME: Duration = Duration::from_secs(1);
/// What a client does over and over: file a sheet over the last one, read it, give it another entry, delete that.
const WORK: [&str; 4] = ["WRS M .W:", "RDS .W:", "DUP .W:", "DEL .W:"];

/// When the disk is flushed.
#[derive(Debug, Clone, Copy, PartialEq, Eq)]
enum Flushed {
    /// As the host asks.
    EachPhase,
    /// After every write, and at no other time.
    EachStore,
}

/// A file whose flushes are counted.
struct Counted {
    file: TableFile,
    flushed: Flushed,
    flushes: Arc<AtomicU64>,
}

impl Counted {
    fn flush_now(&mut self) -> io::Result<()> {
        self.flushes.fetch_add(1, Ordering::Relaxed);
        self.file.flush()
    }
}

impl Disk for Counted {
    fn read(&mut self) -> io::Result<Vec<u8>> {
        self.file.read()
    }

    fn write(&mut self, record: usize, bytes: &[u8]) -> io::Result<()> {
        self.file.write(record, bytes)?;
        match self.flushed {
            Flushed::EachStore => self.flush_now(),
            Flushed::EachPhase => Ok(()),
        }
    }

    fn flush(&mut self) -> io::Result<()> {
        match self.flushed {
            Flushed::EachPhase => self.flush_now(),
            Flushed::EachStore => Ok(()),
        }
    }
}

/// The text of a sheet.
fn text() -> String {
    "5.0 V ".repeat(BYTES / 6)
}

/// What was measured.
#[derive(Debug, Clone, Copy)]
struct Measured {
    requests_a_second: f64,
    flushes_a_request: f64,
}

/// A table's file, which is removed at the end.
struct Named(PathBuf);

impl Drop for Named {
    fn drop(&mut self) {
        let _ = fs::remove_file(&self.0);
    }
}

/// A host of so many fixtures, each another user, on a new file in this folder.
fn host(
    path: &Path,
    fixtures: usize,
    flushed: Flushed,
) -> io::Result<(Vec<SocketAddr>, Arc<AtomicU64>)> {
    fs::write(path, vec![0; RECORDS * 32])?;
    let file = TableFile::of(File::options().read(true).write(true).open(path)?);
    let flushes = Arc::new(AtomicU64::new(0));
    let disk = Counted {
        file,
        flushed,
        flushes: Arc::clone(&flushes),
    };
    let opened = Kept::open(disk).map_err(|wrong| io::Error::other(wrong.to_string()));
    let desk = Desk::new(path.display().to_string(), opened?.0, None);
    let listen = |number: usize| {
        let place = Place {
            fixture: number,
            user: number as u32,
        };
        Ok(Fixture {
            listener: TcpListener::bind("127.0.0.1:0")?,
            place,
        })
    };
    let fixtures: Vec<Fixture> = (1..=fixtures).map(listen).collect::<io::Result<_>>()?;
    let at = |fixture: &Fixture| fixture.listener.local_addr();
    let addresses = fixtures.iter().map(at).collect::<io::Result<_>>()?;
    // it listens until the bench ends
    thread::spawn(move || serve_all(&Arc::new(Mutex::new(desk)), fixtures));
    Ok((addresses, flushes))
}

/// A client's connection.
struct Client {
    stream: TcpStream,
    answers: BufReader<TcpStream>,
}

impl Client {
    fn to(address: SocketAddr) -> io::Result<Client> {
        let stream = TcpStream::connect(address)?;
        stream.set_nodelay(true)?;
        let answers = BufReader::new(stream.try_clone()?);
        Ok(Client { stream, answers })
    }

    /// Ask, and take the answer, which must be that it is done.
    fn ask(&mut self, sent: &str) -> io::Result<()> {
        self.stream.write_all(sent.as_bytes())?;
        let mut line = String::new();
        self.answers.read_line(&mut line)?;
        let numbers: Vec<u64> = line
            .split_whitespace()
            .filter_map(|word| word.parse().ok())
            .collect();
        match numbers[..] {
            [0, _, _, _, _, bytes, _] => {
                io::copy(&mut self.answers.by_ref().take(bytes), &mut io::sink()).map(drop)
            }
            _ => Err(io::Error::other(format!("{sent}: {line}"))),
        }
    }

    /// Turn after turn until it is enough; how many requests that was.
    fn work(mut self, enough: &AtomicBool) -> io::Result<u64> {
        let text = text();
        let [wrs, rds, dup, del] = WORK;
        let turn = [
            format!("{wrs}A\n{text}\n"),
            format!("{rds}A\n"),
            format!("{dup}A .W:B\n"),
            format!("{del}B\n"),
        ];
        let mut requests = 0;
        while !enough.load(Ordering::Relaxed) {
            for sent in &turn {
                self.ask(sent)?;
                requests += 1;
            }
        }
        Ok(requests)
    }
}

/// So many clients for so long, on a file in this folder.
fn measured(
    folder: &Path,
    clients: usize,
    flushed: Flushed,
    long: Duration,
) -> io::Result<Measured> {
    let name = format!("filebox-bench-{}-{clients}-{flushed:?}", std::process::id());
    let named = Named(folder.join(name));
    let (addresses, flushes) = host(&named.0, clients, flushed)?;
    let mut ready: Vec<Client> = addresses
        .into_iter()
        .map(Client::to)
        .collect::<io::Result<_>>()?;
    for client in &mut ready {
        client.ask("CRD .W\n")?;
        client.ask(&format!("{}A\n{}\n", WORK[0], text()))?;
    }
    let before = flushes.load(Ordering::Relaxed);
    let enough = AtomicBool::new(false);
    let begun = Instant::now();
    let requests = thread::scope(|scope| -> io::Result<u64> {
        let work = |client: Client| scope.spawn(|| client.work(&enough));
        let working: Vec<_> = ready.into_iter().map(work).collect();
        sleep(long);
        enough.store(true, Ordering::Relaxed);
        let counts = working.into_iter().map(|client| {
            client
                .join()
                .map_err(|_| io::Error::other("a client panicked"))?
        });
        counts.sum()
    })?;
    let flushes = flushes.load(Ordering::Relaxed) - before;
    Ok(Measured {
        requests_a_second: requests as f64 / begun.elapsed().as_secs_f64(),
        flushes_a_request: flushes as f64 / requests as f64,
    })
}

/// The middle one of so many turns, for each way to flush, a second each and in turns: a disk has good moments and bad ones.
fn middle(folder: &Path, clients: usize, turns: usize) -> io::Result<[Measured; 2]> {
    let mut ways = [Flushed::EachPhase, Flushed::EachStore].map(|flushed| (flushed, Vec::new()));
    for _ in 0..turns.max(1) {
        for (flushed, all) in &mut ways {
            all.push(measured(folder, clients, *flushed, TURN_TIME)?);
        }
    }
    Ok(ways.map(|(_, mut all)| {
        all.sort_by(|one, other| one.requests_a_second.total_cmp(&other.requests_a_second));
        all[all.len() / 2]
    }))
}

/// The rows of one folder: three phases, a flush a store, and how many times as many requests that is.
fn rows(title: &str, folder: &Path, turns: usize) -> io::Result<()> {
    for clients in [1, 14] {
        let [phases, stores] = middle(folder, clients, turns)?;
        println!(
            "| {title} | {clients} | {:.0} | {:.2} | {:.0} | {:.2} | {:.1} |",
            phases.requests_a_second,
            phases.flushes_a_request,
            stores.requests_a_second,
            stores.flushes_a_request,
            phases.requests_a_second / stores.requests_a_second
        );
    }
    Ok(())
}

/// Measure in memory and on the disk that holds this folder, so many turns.
pub fn bench(folder: &Path, turns: usize) -> io::Result<()> {
    println!("| File | Clients | Requests a second | Flushes a request | With a flush a store | Flushes a request | Ratio |");
    println!("|---|---|---|---|---|---|---|");
    let memory = Path::new("/dev/shm");
    if memory.is_dir() {
        rows("in memory", memory, turns)?;
    }
    rows("on disk", folder, turns)
}

#[cfg(test)]
mod tests {
    use super::*;

    #[test]
    fn a_phase_has_a_flush_and_a_store_has_a_flush() {
        let folder = std::env::temp_dir();
        let long = Duration::from_millis(200);
        // a turn of four requests: three flushes for the sheet that displaces, two for the DUP, two for the DEL, whose counts are of the last
        // phase; 23, 3 and 3 records written
        for (clients, flushed, each) in [
            (14, Flushed::EachPhase, 1.75),
            (1, Flushed::EachStore, 7.25),
        ] {
            let measured = measured(&folder, clients, flushed, long).unwrap();
            assert!(
                (measured.flushes_a_request - each).abs() < 0.01,
                "{measured:?}"
            );
            assert!(measured.requests_a_second > 0.0);
        }
    }
}
