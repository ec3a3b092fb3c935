//! Runs a binary on an input: everything that it writes, standard error
//! included, or what went wrong.

use std::io::{Read, Write};
use std::path::Path;
use std::process::{Child, Command, Stdio};
use std::sync::mpsc;
use std::sync::{Arc, Mutex};
use std::thread;
use std::time::{Duration, Instant};

/// A binary that runs longer hangs.
const PATIENCE: Duration = Duration::from_secs(10);
/// A binary that writes more runs wild: the longest output is under 1 MB.
const MOST: u64 = 4 << 20;
/// Inputs up to this length fit a pipe without anyone reading.
const PIPED: usize = 4096;

pub fn run(path: &Path, input: &[u8]) -> Result<Vec<u8>, String> {
    let tell = |error: std::io::Error| format!("{}: {error}", path.display());
    let (mut reader, writer) = std::io::pipe().map_err(tell)?;
    let mut child = Command::new(path)
        .stdin(Stdio::piped())
        .stderr(writer.try_clone().map_err(tell)?)
        .stdout(writer)
        .spawn()
        .map_err(tell)?;
    let mut stdin = child.stdin.take().expect("a piped standard input");
    let child = Arc::new(Mutex::new(child));
    let (done, watchdog) = watch(Arc::clone(&child));
    let mut output = Vec::new();
    // A program may leave input unread; a broken pipe is no fault.
    let read = if input.len() <= PIPED {
        let _ = stdin.write_all(input);
        drop(stdin);
        reader.by_ref().take(MOST).read_to_end(&mut output)
    } else {
        thread::scope(|scope| {
            scope.spawn(move || stdin.write_all(input));
            reader.by_ref().take(MOST).read_to_end(&mut output)
        })
    };
    drop(reader);
    let ended = finish(&child);
    drop(done);
    let _ = watchdog.join();
    read.map_err(tell)?;
    ended?;
    Ok(output)
}

/// Kills the child unless the sender is dropped in time.
fn watch(child: Arc<Mutex<Child>>) -> (mpsc::Sender<()>, thread::JoinHandle<()>) {
    let (done, waiting) = mpsc::channel();
    let handle = thread::spawn(move || {
        if waiting.recv_timeout(PATIENCE) == Err(mpsc::RecvTimeoutError::Timeout) {
            let _ = child.lock().expect("the child").kill();
        }
    });
    (done, handle)
}

/// Waits for the child's end, which must be a good one.
fn finish(child: &Mutex<Child>) -> Result<(), String> {
    let deadline = Instant::now() + PATIENCE;
    loop {
        let ended = child.lock().expect("the child").try_wait().map_err(|e| e.to_string())?;
        match ended {
            Some(status) if status.success() => return Ok(()),
            Some(status) => return Err(format!("the program ended with {status}")),
            None if Instant::now() > deadline => {
                let _ = child.lock().expect("the child").kill();
            }
            None => thread::sleep(Duration::from_micros(50)),
        }
    }
}
