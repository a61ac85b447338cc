//! This program a second time, as another build of the Rust has it. It is started by the first one and measures a row when a line says so, so that
//! both builds are measured in one run, a row of one directly behind the same row of the other.

use std::fmt;
use std::io::{stdin, stdout, BufRead, BufReader, Write};
use std::process::{Child, ChildStdout, Command, Stdio};

/// Nanoseconds a unit.
pub struct Measured {
    pub ours: f64,
    pub rust: f64,
}

impl Measured {
    pub fn ratio(&self) -> f64 {
        self.ours / self.rust
    }
}

impl fmt::Display for Measured {
    fn fmt(&self, f: &mut fmt::Formatter) -> fmt::Result {
        write!(f, "{:>10.2} {:>10.2} {:>8.2}", self.ours, self.rust, self.ratio())
    }
}

pub enum Best {
    /// There is no other build.
    Alone,
    /// The other build, which this one asks, and its answers.
    Beside(Child, BufReader<ChildStdout>),
    /// This is the other build, which is asked.
    Asked,
}

const ASKED: &str = "GRUNDAVOK_ASKED";

impl Best {
    pub fn new(words: &[String]) -> Best {
        if std::env::var_os(ASKED).is_some() {
            return Best::Asked;
        }
        let Some(program) = std::env::var_os("GRUNDAVOK_BEST") else {
            return Best::Alone;
        };
        let mut other = Command::new(program);
        other.args(words).env(ASKED, "1").stdin(Stdio::piped()).stdout(Stdio::piped());
        let mut child = other.spawn().expect("the other build starts");
        let answers = BufReader::new(child.stdout.take().unwrap());
        Best::Beside(child, answers)
    }

    pub fn asked(&self) -> bool {
        matches!(self, Best::Asked)
    }

    pub fn there(&self) -> bool {
        matches!(self, Best::Beside(..))
    }

    /// Is the next row to be measured? Where this build is asked, it waits for a line.
    pub fn turn(&self) -> bool {
        !self.asked() || stdin().lock().read_line(&mut String::new()).is_ok_and(|n| n != 0)
    }

    /// What the other build measures of a row that this one has measured; or, where this build is asked, its answer.
    pub fn beside(&mut self, here: &Measured) -> Option<Measured> {
        match self {
            Best::Alone => None,
            Best::Asked => {
                println!("{} {}", here.ours, here.rust);
                stdout().flush().unwrap();
                None
            }
            Best::Beside(child, answers) => {
                writeln!(child.stdin.as_mut().unwrap()).unwrap();
                let mut line = String::new();
                answers.read_line(&mut line).unwrap();
                let (ours, rust) = line.trim().split_once(' ').expect("the other build answers");
                Some(Measured {
                    ours: ours.parse().unwrap(),
                    rust: rust.parse().unwrap(),
                })
            }
        }
    }
}

impl Drop for Best {
    fn drop(&mut self) {
        if let Best::Beside(child, _) = self {
            drop(child.stdin.take());
            let _ = child.wait();
        }
    }
}
