//! Input that is lines, of a bounded number of bytes before the line feed.

use std::io::{self, ErrorKind, Read, Write};

/// The line that is coming in, however its bytes are split. Never keeps more than `most_bytes` of them.
pub struct Cutter {
    most_bytes: usize,
    kept: Vec<u8>,
    too_long: bool,
}

/// A whole line: its bytes, or that it was too long.
#[derive(Debug, PartialEq, Eq)]
pub enum Cut {
    Line(Vec<u8>),
    TooLong,
}

impl Cutter {
    pub fn new(most_bytes: usize) -> Cutter {
        Cutter { most_bytes, kept: Vec::new(), too_long: false }
    }

    /// Takes one byte; answers the line that it ends, if it ends one.
    pub fn take(&mut self, byte: u8) -> Option<Cut> {
        if byte == b'\n' {
            return Some(self.cut());
        }
        if self.kept.len() < self.most_bytes {
            self.kept.push(byte);
        } else {
            self.too_long = true;
        }
        None
    }

    /// The end of the input. A last line without a line feed is a line like any other; an empty rest is none.
    pub fn rest(&mut self) -> Option<Cut> {
        if self.kept.is_empty() {
            return None;
        }
        Some(self.cut())
    }

    /// A line that is too long is one all the same, whatever its length.
    fn cut(&mut self) -> Cut {
        let line = std::mem::take(&mut self.kept);
        let too_long = self.too_long;
        self.too_long = false;
        if too_long {
            Cut::TooLong
        } else {
            Cut::Line(line)
        }
    }
}

/// Writes the answer to each line of `input`, to its end. Answers are flushed before it waits for more input.
pub fn play_lines<R: Read, W: Write>(
    input: &mut R,
    output: &mut W,
    most_bytes: usize,
    answer: &mut dyn FnMut(&Cut) -> String,
) -> io::Result<()> {
    let mut cutter = Cutter::new(most_bytes);
    let mut chunk = [0; 4096];
    loop {
        output.flush()?;
        let filled = match input.read(&mut chunk) {
            Ok(0) => break,
            Ok(filled) => filled,
            Err(error) if error.kind() == ErrorKind::Interrupted => continue,
            Err(error) => return Err(error),
        };
        for byte in chunk.iter().take(filled) {
            if let Some(cut) = cutter.take(*byte) {
                output.write_all(answer(&cut).as_bytes())?;
            }
        }
    }
    if let Some(cut) = cutter.rest() {
        output.write_all(answer(&cut).as_bytes())?;
    }
    output.flush()
}

#[cfg(test)]
mod tests {
    use super::*;

    fn cuts_of(most_bytes: usize, input: &[u8]) -> Vec<Cut> {
        let mut cutter = Cutter::new(most_bytes);
        let mut cuts = Vec::new();
        for byte in input {
            cuts.extend(cutter.take(*byte));
            assert!(cutter.kept.len() <= most_bytes);
        }
        cuts.extend(cutter.rest());
        assert_eq!(cutter.rest(), None);
        cuts
    }

    fn cuts(input: &[u8]) -> Vec<Cut> {
        cuts_of(1023, input)
    }

    fn line(bytes: &[u8]) -> Cut {
        Cut::Line(bytes.to_vec())
    }

    #[test]
    fn ends_of_lines() {
        assert_eq!(cuts(b""), []);
        assert_eq!(cuts(b"\n"), [line(b"")]);
        assert_eq!(cuts(b"a"), [line(b"a")]);
        assert_eq!(cuts(b"a\n"), [line(b"a")]);
        assert_eq!(cuts(b"a\nb"), [line(b"a"), line(b"b")]);
        assert_eq!(cuts(b"a\n\nb\r\n\n"), [line(b"a"), line(b""), line(b"b\r"), line(b"")]);
        assert_eq!(cuts(b"\0\xff\n"), [line(b"\0\xff")]);
    }

    #[test]
    fn long_lines() {
        let long = vec![b'a'; 1023];
        assert_eq!(cuts(&long), [line(&long)]);
        let mut input = long.clone();
        input.extend_from_slice(b"\nx\n");
        assert_eq!(cuts(&input), [line(&long), line(b"x")]);
        let mut input = long.clone();
        input.extend_from_slice(b"a\nx\n");
        assert_eq!(cuts(&input), [Cut::TooLong, line(b"x")]);
        let mut input = long;
        input.extend_from_slice(b"a");
        assert_eq!(cuts(&input), [Cut::TooLong]);
        let mut input = vec![b' '; 3_000_000];
        input.extend_from_slice(b"\nx");
        assert_eq!(cuts(&input), [Cut::TooLong, line(b"x")]);
    }

    #[test]
    fn another_bound() {
        assert_eq!(
            cuts_of(3, b"abc\nabcd\nab\nabcdefg\nabc"),
            [line(b"abc"), Cut::TooLong, line(b"ab"), Cut::TooLong, line(b"abc")]
        );
        assert_eq!(cuts_of(3, b"abcd"), [Cut::TooLong]);
    }
}
