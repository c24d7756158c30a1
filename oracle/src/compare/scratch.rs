//! The scratch folder in which the program finds a pair of files, and a run of it
//! there.

use crate::pairs::{Entry, Pair, Unreadable};
use crate::run::NAMES;
use std::fs;
use std::io::{self, Read};
use std::os::unix::fs::symlink;
use std::os::unix::net::UnixListener;
use std::path::{Path, PathBuf};
use std::process::{Child, Command, Stdio};
use std::sync::mpsc;
use std::thread;
use std::time::Duration;

/// A program that has not ended its output by then is stopped.
const LONGEST: Duration = Duration::from_secs(60);

/// No output is as long; what is behind is not read.
const MOST_PRINTED: u64 = 1_000_000;

/// Two folders, one for the pair and one for what links lead to. They are removed at the
/// end.
pub struct Scratch {
    folder: PathBuf,
}

/// What the program printed, how it ended, and whether that was status 0.
pub struct Ran {
    pub printed: Vec<u8>,
    pub ended: String,
    pub well: bool,
}

impl Scratch {
    pub fn new() -> io::Result<Scratch> {
        let name = format!("oracle-{}", std::process::id());
        let folder = std::env::temp_dir().join(name);
        fs::create_dir(&folder)?;
        Ok(Scratch { folder })
    }

    /// The program's run on the pair.
    pub fn run(&self, pair: &Pair, words: &[&str]) -> io::Result<Ran> {
        let (working, beside) = (self.folder.join("pair"), self.folder.join("beside"));
        for folder in [&working, &beside] {
            if folder.exists() {
                fs::remove_dir_all(folder)?;
            }
            fs::create_dir(folder)?;
        }
        write(pair, &working, &beside)?;
        let child = Command::new(words[0])
            .args(&words[1..])
            .current_dir(&working)
            .stdin(Stdio::null())
            .stdout(Stdio::piped())
            .stderr(Stdio::null())
            .spawn();
        ran(child.map_err(|error| io::Error::other(format!("{}: {error}", words[0])))?)
    }
}

impl Drop for Scratch {
    fn drop(&mut self) {
        // Nothing can be done about a folder that stays.
        let _ = fs::remove_dir_all(&self.folder);
    }
}

fn ran(mut child: Child) -> io::Result<Ran> {
    let output = child.stdout.take().expect("a pipe");
    let (sender, receiver) = mpsc::channel();
    thread::spawn(move || {
        let mut printed = vec![];
        let read = output.take(MOST_PRINTED).read_to_end(&mut printed);
        // Nobody listens any more if the program was stopped.
        let _ = sender.send(read.map(|_| printed));
    });
    let Ok(printed) = receiver.recv_timeout(LONGEST) else {
        child.kill()?;
        child.wait()?;
        return Ok(Ran {
            printed: vec![],
            ended: format!("stopped after {} seconds", LONGEST.as_secs()),
            well: false,
        });
    };
    let status = child.wait()?;
    Ok(Ran {
        printed: printed?,
        ended: status.to_string(),
        well: status.success(),
    })
}

/// Puts both entries into a folder, and what links lead to into the one beside it.
pub fn write(pair: &Pair, folder: &Path, beside: &Path) -> io::Result<()> {
    for (name, entry) in NAMES.iter().zip(pair) {
        write_entry(entry, name, folder, beside)?;
    }
    Ok(())
}

fn write_entry(entry: &Entry, name: &str, folder: &Path, beside: &Path) -> io::Result<()> {
    let path = folder.join(name);
    match entry {
        Entry::Text(text) => fs::write(path, text),
        Entry::Linked(text) => {
            let beside = fs::canonicalize(beside)?;
            let [target, link] = ["text", "link"].map(|end| beside.join(format!("{name}.{end}")));
            fs::write(&target, text)?;
            symlink(&target, &link)?;
            symlink(link, path)
        }
        Entry::Unreadable(Unreadable::Missing) => Ok(()),
        Entry::Unreadable(Unreadable::Directory) => fs::create_dir(path),
        Entry::Unreadable(Unreadable::DanglingLink) => symlink("nothing", path),
        Entry::Unreadable(Unreadable::LinkToItself) => symlink(name, path),
        // The socket stays in the folder when nobody listens any more.
        Entry::Unreadable(Unreadable::Socket) => UnixListener::bind(path).map(drop),
        // It opens, but there is nothing at its start.
        Entry::Unreadable(Unreadable::FailingRead) => symlink("/proc/self/mem", path),
    }
}
