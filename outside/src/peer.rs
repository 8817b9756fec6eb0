//! Another program that answers case lines: asked without waiting for it, and its answers compared as they come.

use std::io::{self, BufRead, BufReader, Write};
use std::process::{Child, ChildStdin, ChildStdout, Command, Stdio};
use std::sync::mpsc::{channel, sync_channel, Receiver, Sender, SyncSender};
use std::thread::{spawn, JoinHandle};

/// How many differences of a program are printed; all are counted.
const SHOWN: usize = 5;

/// A case line and the answer that is expected to it.
struct Asked {
    line: String,
    expected: String,
}

/// A running program. One thread writes to it and another one reads from it, so that no pipe is ever waited for in a
/// circle: what is asked is not bounded, what is written is.
pub struct Peer {
    name: String,
    child: Child,
    lines: SyncSender<String>,
    asked: Sender<Asked>,
    writer: JoinHandle<()>,
    reader: JoinHandle<Compared>,
}

/// What came of a program's answers.
#[derive(Clone, Copy, Debug, Default, PartialEq, Eq)]
pub struct Compared {
    pub answers: usize,
    pub differences: usize,
}

impl Peer {
    /// Starts a program, given by its name and arguments with spaces between them.
    pub fn start(command: &str) -> io::Result<Peer> {
        let mut words = command.split_whitespace();
        let program = words.next().ok_or_else(|| io::Error::other("a program is wanted"))?;
        let mut child = Command::new(program)
            .args(words)
            .stdin(Stdio::piped())
            .stdout(Stdio::piped())
            .spawn()
            .map_err(|error| io::Error::new(error.kind(), format!("{program}: {error}")))?;
        let (stdin, stdout) = (child.stdin.take().expect("it is piped"), child.stdout.take().expect("it is piped"));
        let (lines, to_write) = sync_channel(64);
        let (asked, to_compare) = channel();
        let name = command.to_string();
        let writer = spawn(move || write_lines(stdin, &to_write));
        let reader = spawn(move || compare_answers(&name, stdout, &to_compare));
        Ok(Peer { name: command.to_string(), child, lines, asked, writer, reader })
    }

    /// Asks a case; false, if the program no longer takes any.
    pub fn ask(&self, line: String, expected: String) -> bool {
        self.asked.send(Asked { line: line.clone(), expected }).is_ok() && self.lines.send(line + "\n").is_ok()
    }

    /// Waits for all answers. That the program fails is a difference too.
    pub fn finish(mut self) -> io::Result<Compared> {
        drop((self.lines, self.asked));
        self.writer.join().expect("writing does not panic");
        let mut compared = self.reader.join().expect("reading does not panic");
        let status = self.child.wait()?;
        if !status.success() {
            println!("{}: ended with {status}", self.name);
            compared.differences += 1;
        }
        Ok(compared)
    }
}

/// Writes lines until there are no more, or the program takes no more.
fn write_lines(mut stdin: ChildStdin, lines: &Receiver<String>) {
    while let Ok(line) = lines.recv() {
        if stdin.write_all(line.as_bytes()).is_err() {
            return;
        }
    }
}

fn compare_answers(name: &str, stdout: ChildStdout, asked: &Receiver<Asked>) -> Compared {
    let mut stdout = BufReader::new(stdout);
    let mut compared = Compared::default();
    while let Ok(Asked { line, expected }) = asked.recv() {
        let answer = next_answer(&mut stdout, expected.ends_with("end\n"));
        compared.answers += usize::from(!answer.is_empty());
        if answer != expected {
            compared.differences += 1;
            if compared.differences <= SHOWN {
                println!("{}", difference(name, &line, &expected, &answer));
            }
        }
    }
    let rest = next_answer(&mut stdout, false);
    if !rest.is_empty() {
        println!("{name}: more lines than were asked for: {rest}");
        compared.differences += 1;
    }
    compared
}

/// The next line, or the lines up to `end`. A program that does not know a call says so in one line.
fn next_answer(stdout: &mut impl BufRead, is_long: bool) -> String {
    let mut answer = Vec::new();
    loop {
        let start = answer.len();
        // What cannot be read is no answer.
        let length = stdout.read_until(b'\n', &mut answer).unwrap_or(0);
        let line = &answer[start..];
        if length == 0 || !is_long || line == b"end\n" || line.starts_with(b"no such") {
            return String::from_utf8_lossy(&answer).into_owned();
        }
    }
}

/// A difference in four lines: of long answers only the first line that differs.
fn difference(name: &str, line: &str, expected: &str, answer: &str) -> String {
    let same = expected.lines().zip(answer.lines()).take_while(|(one, other)| one == other).count();
    let nth = |text: &str| text.lines().nth(same).unwrap_or("(nothing)").to_string();
    format!(
        "difference: {name}, line {} of the answer\n  case     {line}\n  expected {}\n  answered {}",
        same + 1,
        nth(expected),
        nth(answer)
    )
}

#[cfg(test)]
mod tests {
    use super::*;

    #[test]
    fn answers_end_where_they_should() {
        let mut lines = &b"packed 1\nblock 00\nend\nopened 1\nno such case\nanswer 2"[..];
        assert_eq!(next_answer(&mut lines, true), "packed 1\nblock 00\nend\n");
        assert_eq!(next_answer(&mut lines, false), "opened 1\n");
        assert_eq!(next_answer(&mut lines, true), "no such case\n");
        assert_eq!(next_answer(&mut lines, false), "answer 2");
        assert_eq!(next_answer(&mut lines, true), "");
    }

    #[test]
    fn a_difference_is_told_by_its_first_line() {
        let told = difference("p", "rows 1 -", "rows 1\na\nend\n", "rows 1\nb\nend\n");
        assert_eq!(told, "difference: p, line 2 of the answer\n  case     rows 1 -\n  expected a\n  answered b");
        assert!(difference("p", "open 1 -", "refused 11 place 0\n", "").ends_with("answered (nothing)"));
    }

    #[test]
    fn programs_are_asked_and_compared() {
        let echo = Peer::start("cat").unwrap();
        for number in 0..1000 {
            let expected = if number % 100 == 99 { "another" } else { "same" };
            assert!(echo.ask("same".to_string(), format!("{expected}\n")));
        }
        assert_eq!(echo.finish().unwrap(), Compared { answers: 1000, differences: 10 });
    }

    #[test]
    fn a_program_that_does_not_answer_differs() {
        let silent = Peer::start("false").unwrap();
        silent.ask("open 1 -".to_string(), "refused 11 place 0\n".to_string());
        assert_eq!(silent.finish().unwrap(), Compared { answers: 0, differences: 2 });
        assert!(Peer::start("/nothing/there").is_err());
    }
}
