//! Lines on standard output: on a terminal a picture that is drawn over the one before, elsewhere a log.

use std::io::{self, Write};

/// Columns of the bar.
const BAR: usize = 40;

/// A terminal cuts long lines at its edge, or wraps them. Wrapped lines could not be drawn over.
const CUT: &str = "\x1b[?7l";
const WRAP: &str = "\x1b[?7h";

pub struct Screen<W> {
    out: W,
    terminal: bool,
    /// The lines shown last.
    shown: Vec<String>,
}

impl<W: Write> Screen<W> {
    pub fn new(out: W, terminal: bool) -> Self {
        Self {
            out,
            terminal,
            shown: Vec::new(),
        }
    }

    pub fn is_terminal(&self) -> bool {
        self.terminal
    }

    /// Shows as many lines as before: in a log those that have changed, and on a terminal all, under a bar. The last
    /// picture is not drawn over.
    pub fn show(&mut self, bar: Bar, lines: Vec<String>, last: bool) -> io::Result<()> {
        if self.terminal {
            let edge = if last { WRAP } else { CUT };
            self.draw(bar, edge, &lines)?;
        } else {
            self.log(&lines)?;
        }
        self.shown = lines;
        self.out.flush()
    }

    fn draw(&mut self, bar: Bar, edge: &str, lines: &[String]) -> io::Result<()> {
        if !self.shown.is_empty() {
            write!(self.out, "\x1b[{}A", self.shown.len() + 1)?;
        }
        writeln!(self.out, "{edge}{}\x1b[K", bar.picture())?;
        for line in lines {
            writeln!(self.out, "{line}\x1b[K")?;
        }
        write!(self.out, "{WRAP}")
    }

    fn log(&mut self, lines: &[String]) -> io::Result<()> {
        for (at, line) in lines.iter().enumerate() {
            if self.shown.get(at) != Some(line) {
                writeln!(self.out, "{line}")?;
            }
        }
        Ok(())
    }
}

/// A bar that is full by a part of the whole.
#[derive(Clone, Copy)]
pub struct Bar {
    pub part: u64,
    pub whole: u64,
}

impl Bar {
    fn picture(self) -> String {
        let full = (self.part * BAR as u64 / self.whole.max(1)) as usize;
        format!("[{}{}]", "#".repeat(full), ".".repeat(BAR - full))
    }
}

#[cfg(test)]
mod tests {
    use super::*;

    /// What is printed for two pictures, of which one line changes.
    fn printed(terminal: bool) -> String {
        let mut out = Vec::new();
        let mut screen = Screen::new(&mut out, terminal);
        for (part, line) in [(1, "5 rows"), (4, "7 rows")] {
            let lines = ["one", line].map(String::from).to_vec();
            let shown = screen.show(Bar { part, whole: 4 }, lines, part == 4);
            shown.expect("memory takes all");
        }
        String::from_utf8(out).expect("text")
    }

    #[test]
    fn a_log_has_the_lines_that_change() {
        assert_eq!(printed(false), "one\n5 rows\n7 rows\n");
    }

    #[test]
    fn a_terminal_has_each_picture_over_the_one_before() {
        let (quarter, three) = ("#".repeat(10), ".".repeat(30));
        let first = format!("\x1b[?7l[{quarter}{three}]\x1b[K\none\x1b[K\n5 rows\x1b[K\n\x1b[?7h");
        let full = "#".repeat(40);
        let last = format!("\x1b[3A\x1b[?7h[{full}]\x1b[K\none\x1b[K\n7 rows\x1b[K\n\x1b[?7h");
        assert_eq!(printed(true), first + &last);
    }
}
