//! The line protocol of both programs. A supervisor hands each line to a worker, the same program in a process of its
//! own, because the Rust may use up stack, memory or time without a refusal: then the answer is `died`, and a new
//! worker goes on with the next line.

use std::io::{self, BufRead, BufReader, BufWriter, Write};
use std::path::{Path, PathBuf};
use std::process::{Child, ChildStdin, ChildStdout, Command, Stdio};
use std::sync::{Arc, Mutex, MutexGuard, PoisonError};
use std::thread;
use std::time::{Duration, Instant};

/// The hidden argument that makes the program a worker.
const WORKER: &str = "--worker";

/// Enough for some 600,000 levels of nesting in the Rust's own recursions.
const STACK_BYTES: usize = 512 << 20;

/// Sets the worker's memory limit (3 GB, in units of 1,024 bytes), which std can't do. Where it fails, a lower limit
/// is in force already.
const START: &str = "ulimit -v 3145728 || true; exec \"$0\" \"$1\"";

const DEFAULT_SECONDS: f64 = 10.0;

type Answer = fn(&[u8]) -> String;

/// Answer the lines of standard input to its end. `answer` must be a function of the line alone.
pub fn main(answer: Answer) {
    let worker = std::env::args().nth(1).as_deref() == Some(WORKER);
    let result = if worker { work(answer) } else { supervise() };
    if let Err(error) = result {
        eprintln!("{error}");
        std::process::exit(1);
    }
}

/// The lines of a stream without their newlines, a last one without newline included.
fn next_line(read: &mut impl BufRead, line: &mut Vec<u8>) -> io::Result<bool> {
    line.clear();
    let more = read.read_until(b'\n', line)? != 0;
    if line.last() == Some(&b'\n') {
        line.pop();
    }
    Ok(more)
}

/// The worker: a thread with a large stack, one flushed answer a line. The value is dropped inside `answer`, so that
/// a death in dropping is the death of its own line.
fn work(answer: Answer) -> io::Result<()> {
    let lines = move || -> io::Result<()> {
        let (mut input, mut output) = (io::stdin().lock(), io::stdout());
        let mut line = Vec::new();
        while next_line(&mut input, &mut line)? {
            let mut text = answer(&line);
            text.push('\n');
            output.write_all(text.as_bytes())?;
            output.flush()?;
        }
        Ok(())
    };
    let thread = thread::Builder::new().stack_size(STACK_BYTES).spawn(lines)?;
    thread.join().unwrap_or_else(|_| Err(io::Error::new(io::ErrorKind::Other, "panic")))
}

fn supervise() -> io::Result<()> {
    let mut supervisor = Supervisor::new(seconds()?)?;
    let mut input = BufReader::with_capacity(1 << 16, io::stdin());
    let mut output = BufWriter::with_capacity(1 << 16, io::stdout());
    let mut line = Vec::new();
    loop {
        // Input has run dry: who waits for the answers must get them now.
        if !input.buffer().contains(&b'\n') {
            output.flush()?;
        }
        if !next_line(&mut input, &mut line)? {
            return output.flush();
        }
        output.write_all(&supervisor.ask(&line)?)?;
    }
}

fn seconds() -> io::Result<Duration> {
    let seconds = match std::env::var("ORACLE_SECONDS") {
        Ok(text) => text.parse().ok().filter(|&seconds| seconds > 0.0 && seconds < 1e6),
        Err(_) => Some(DEFAULT_SECONDS),
    };
    let message = "ORACLE_SECONDS is not a number of seconds";
    seconds.map(Duration::from_secs_f64).ok_or_else(|| io::Error::new(io::ErrorKind::InvalidInput, message))
}

struct Supervisor {
    program: PathBuf,
    watch: Arc<Mutex<Watch>>,
    pipes: Option<Pipes>,
}

/// The two ends of the worker that the supervisor holds.
struct Pipes {
    input: ChildStdin,
    output: BufReader<ChildStdout>,
}

/// What the watching thread has to know: the worker, and since when it has been at a line.
#[derive(Default)]
struct Watch {
    child: Option<Child>,
    since: Option<Instant>,
}

impl Supervisor {

    fn new(limit: Duration) -> io::Result<Self> {
        let watch = Arc::new(Mutex::new(Watch::default()));
        let watched = Arc::clone(&watch);
        // Killing ends the supervisor's blocking read, which so needs no time limit of its own.
        let pause = (limit / 10).clamp(Duration::from_millis(1), Duration::from_millis(100));
        thread::Builder::new().spawn(move || loop {
            thread::sleep(pause);
            let mut watch = lock(&watched);
            if watch.since.is_some_and(|since| since.elapsed() > limit) {
                watch.end();
            }
        })?;
        Ok(Supervisor { program: std::env::current_exe()?, watch, pipes: None })
    }

    /// The worker's answer with its newline, or `died`.
    fn ask(&mut self, line: &[u8]) -> io::Result<Vec<u8>> {
        let mut pipes = match self.pipes.take() {
            Some(pipes) => pipes,
            None => self.start()?,
        };
        lock(&self.watch).since = Some(Instant::now());
        let answer = exchange(&mut pipes, line);
        let mut watch = lock(&self.watch);
        watch.since = None;
        if answer.is_err() {
            watch.end();
        } else if watch.child.is_some() {
            self.pipes = Some(pipes);
        }
        Ok(answer.unwrap_or_else(|_| b"died\n".to_vec()))
    }

    fn start(&self) -> io::Result<Pipes> {
        let mut child = command(&self.program).spawn()?;
        let gone = || io::Error::new(io::ErrorKind::Other, "worker without pipes");
        let input = child.stdin.take().ok_or_else(gone)?;
        let output = BufReader::with_capacity(1 << 16, child.stdout.take().ok_or_else(gone)?);
        lock(&self.watch).child = Some(child);
        Ok(Pipes { input, output })
    }

}

impl Watch {

    fn end(&mut self) {
        if let Some(mut child) = self.child.take() {
            // Either call fails only for a child that is gone already.
            let _ = child.kill();
            let _ = child.wait();
        }
    }

}

impl Drop for Supervisor {
    fn drop(&mut self) {
        self.pipes = None;
        lock(&self.watch).end();
    }
}

fn command(program: &Path) -> Command {
    let mut command = Command::new("sh");
    command.arg("-c").arg(START).arg(program).arg(WORKER);
    command.stdin(Stdio::piped()).stdout(Stdio::piped()).stderr(Stdio::null());
    command
}

fn lock(watch: &Mutex<Watch>) -> MutexGuard<'_, Watch> {
    watch.lock().unwrap_or_else(PoisonError::into_inner)
}

/// Hand over a line and wait for the answer; an answer without its newline broke off.
fn exchange(pipes: &mut Pipes, line: &[u8]) -> io::Result<Vec<u8>> {
    let mut request = Vec::with_capacity(line.len() + 1);
    request.extend(line);
    request.push(b'\n');
    pipes.input.write_all(&request)?;
    let mut answer = Vec::new();
    pipes.output.read_until(b'\n', &mut answer)?;
    if answer.last() != Some(&b'\n') {
        return Err(io::ErrorKind::UnexpectedEof.into());
    }
    Ok(answer)
}
