//! The host's own program, on a table in a folder of its own.

use std::fs;
use std::io::{self, BufRead, BufReader};
use std::net::SocketAddr;
use std::path::{Path, PathBuf};
use std::process::{Child, ChildStderr, Command, Stdio};

use super::{user, FIXTURES, RECORDS};

/// A folder of its own; it is removed at the end.
pub struct Folder(PathBuf);

impl Folder {
    /// On the disk, where flushes take their time and a kill falls between them; or in memory, if the machine has such.
    pub fn new(seed: u64, on_disk: bool) -> io::Result<Folder> {
        let memory = Path::new("/dev/shm");
        let above = if memory.is_dir() && !on_disk {
            memory.to_path_buf()
        } else {
            std::env::temp_dir()
        };
        let folder = above.join(format!("filebox-crowd-{}-{seed}", std::process::id()));
        fs::create_dir_all(&folder)?;
        Ok(Folder(folder))
    }

    pub fn table(&self) -> PathBuf {
        self.0.join("table")
    }

    pub fn journal(&self) -> PathBuf {
        self.0.join("journal")
    }
}

impl Drop for Folder {
    fn drop(&mut self) {
        // nothing is lost if it stays
        let _ = fs::remove_dir_all(&self.0);
    }
}

/// The host's program, running; it is killed at the end. Its standard error stays open.
pub struct Host {
    child: Child,
    pub addresses: Vec<SocketAddr>,
    _said: BufReader<ChildStderr>,
}

impl Host {
    /// Start `PROGRAM serve` on the table of this folder, with a new journal, and wait until it listens.
    pub fn start(program: &Path, folder: &Folder) -> io::Result<Host> {
        let _ = fs::remove_file(folder.journal());
        let fixture = |number| format!("127.0.0.1:0={}", user(number));
        let fixtures = (0..FIXTURES).flat_map(|number| ["--fixture".to_string(), fixture(number)]);
        let mut child = Command::new(program)
            .arg("serve")
            .arg(folder.table())
            .args(["--records", &RECORDS.to_string(), "--journal"])
            .arg(folder.journal())
            .args(fixtures)
            .stderr(Stdio::piped())
            .spawn()?;
        let said = child
            .stderr
            .take()
            .ok_or_else(|| io::Error::other("no pipe"))?;
        let mut host = Host {
            child,
            addresses: Vec::new(),
            _said: BufReader::new(said),
        };
        while host.addresses.len() < FIXTURES {
            let mut line = String::new();
            if host._said.read_line(&mut line)? == 0 {
                return Err(io::Error::other("the host ended"));
            }
            let address: Option<SocketAddr> =
                line.split([' ', ',']).find_map(|word| word.parse().ok());
            host.addresses.extend(address);
        }
        Ok(host)
    }

    pub fn kill(&mut self) -> io::Result<()> {
        self.child.kill()?;
        self.child.wait().map(drop)
    }
}

impl Drop for Host {
    fn drop(&mut self) {
        // it may have been killed already
        let _ = self.kill();
    }
}
