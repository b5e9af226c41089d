//! Runs the program under comparison, with a limit of time: one that hangs is a fault like
//! another.

use std::io::{Read, Write};
use std::process::{Child, ChildStdin, Command, ExitStatus, Stdio};
use std::thread;
use std::time::{Duration, Instant};

/// No run takes longer, under valgrind neither.
pub const LIMIT: Duration = Duration::from_secs(30);

/// No run writes more, and what would write without end is not read to its end.
const MOST_OUTPUT: u64 = 64 << 20;

/// What runs the program: itself, or a shell that limits it first.
#[derive(Clone, Debug)]
pub struct Program {
    words: Vec<String>,
}

/// How a run has ended.
#[derive(Debug)]
pub struct Ended {
    pub status: ExitStatus,
    pub output: Vec<u8>,
    pub errors: Vec<u8>,
}

impl Program {
    pub fn new(words: &[&str]) -> Program {
        Program { words: words.iter().map(|&word| word.into()).collect() }
    }

    /// The program run by another, such as valgrind.
    pub fn under(&self, words: &[&str]) -> Program {
        Program { words: words.iter().map(|&word| word.into()).chain(self.words.iter().cloned()).collect() }
    }

    /// The program run by a shell's command in which `"$@"` stands for it.
    pub fn in_shell(&self, command: &str) -> Program {
        self.under(&["sh", "-c", command, "sh"])
    }

    /// Without an environment, which takes stack.
    fn command(&self) -> Command {
        let mut command = Command::new(&self.words[0]);
        command.args(&self.words[1..]).env_clear();
        for kept in ["PATH", "VALGRIND_LIB"] {
            if let Some(value) = std::env::var_os(kept) {
                command.env(kept, value);
            }
        }
        command
    }

    fn spawn(&self, input: Stdio, output: Stdio) -> Result<Child, String> {
        let mut command = self.command();
        command.stdin(input).stdout(output).stderr(Stdio::piped());
        command.spawn().map_err(|fault| format!("{}: {fault}", self.words.join(" ")))
    }

    /// A run whose input is written by `feed`, which stops where the program takes no more.
    pub fn run(&self, feed: impl FnOnce(ChildStdin) + Send) -> Result<Ended, String> {
        let mut child = self.spawn(Stdio::piped(), Stdio::piped())?;
        let input = child.stdin.take().expect("a pipe");
        finish(child, || feed(input), LIMIT)
    }

    /// A run on these bytes through a pipe.
    pub fn run_on(&self, bytes: &[u8]) -> Result<Ended, String> {
        self.run(|mut input| _ = input.write_all(bytes))
    }

    /// A run whose input and output are these.
    pub fn run_between(&self, input: Stdio, output: Stdio) -> Result<Ended, String> {
        finish(self.spawn(input, output)?, || (), LIMIT)
    }

    /// A run whose input never ends and whose reader goes away once it has a byte, or writes into
    /// `output`: it has to end in so much time.
    pub fn run_without_end(
        &self,
        block: &[u8],
        output: Option<Stdio>,
        limit: Duration,
    ) -> Result<Ended, String> {
        let mut child = self.spawn(Stdio::piped(), output.unwrap_or(Stdio::piped()))?;
        let mut input = child.stdin.take().expect("a pipe");
        let reader = child.stdout.take();
        let feed = move || {
            thread::scope(|scope| {
                scope.spawn(move || reader.map(|mut reader| reader.read_exact(&mut [0])));
                while input.write_all(block).is_ok() {}
            });
        };
        finish(child, feed, limit)
    }
}

/// Waits for the end of a run, feeding and reading meanwhile.
fn finish(mut child: Child, feed: impl FnOnce() + Send, limit: Duration) -> Result<Ended, String> {
    let (output, errors) = (child.stdout.take(), child.stderr.take());
    thread::scope(|scope| {
        scope.spawn(feed);
        let output = scope.spawn(move || read_all(output));
        let errors = scope.spawn(move || read_all(errors));
        let status = wait(&mut child, limit);
        let [output, errors] = [output, errors].map(|read| read.join().expect("no panic"));
        Ok(Ended { status: status?, output, errors })
    })
}

/// What is beyond the most that is read, or cannot be read, is missed in the comparison.
fn read_all(pipe: Option<impl Read>) -> Vec<u8> {
    let mut bytes = Vec::new();
    _ = pipe.map(|pipe| pipe.take(MOST_OUTPUT).read_to_end(&mut bytes));
    bytes
}

fn wait(child: &mut Child, limit: Duration) -> Result<ExitStatus, String> {
    let start = Instant::now();
    let mut pause = Duration::from_micros(50);
    loop {
        if let Some(status) = child.try_wait().map_err(|fault| fault.to_string())? {
            return Ok(status);
        }
        if start.elapsed() > limit {
            child.kill().and_then(|()| child.wait()).map_err(|fault| fault.to_string())?;
            return Err(format!("it had not ended after {} s", limit.as_secs()));
        }
        thread::sleep(pause);
        pause = (2 * pause).min(Duration::from_millis(2));
    }
}
