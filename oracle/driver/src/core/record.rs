//! Recorded answers: one case on each line, the questions in `stdin` and the
//! answers in `stdout` of the program crate `replay`. A question's first word is
//! its subject.

use std::fs;
use std::io;
use std::path::Path;

#[derive(Default)]
pub struct Record {
    subject: &'static str,
    stdin: String,
    stdout: String,
    cases: u64,
}

impl Record {
    /// The most that a file may hold: what the program reads.
    const MOST: usize = 524_288;

    /// The subject of the cases that follow.
    pub fn about(&mut self, subject: &'static str) {
        self.subject = subject;
    }
    pub fn case(&mut self, question: &str, answer: &str) {
        let question = format!("{} {question}", self.subject);
        for (text, line) in [
            (&mut self.stdin, question.as_str()),
            (&mut self.stdout, answer),
        ] {
            assert!(!line.is_empty() && !line.contains('\n') && !line.contains("  "));
            assert!(line.trim() == line);
            text.push_str(line);
            text.push('\n');
            assert!(text.len() <= Record::MOST, "the record is too long");
        }
        self.cases += 1;
    }
    pub fn cases(&self) -> u64 {
        self.cases
    }
    /// Writes both files into `folder`.
    pub fn write(&self, folder: &Path) -> io::Result<()> {
        fs::create_dir_all(folder)?;
        fs::write(folder.join("stdin"), &self.stdin)?;
        fs::write(folder.join("stdout"), &self.stdout)
    }
}
