//! Names of session files, and what they give. The expected lines are worked out by hand from document 02 (W13) and READINGS
//! (W13).

use std::env;
use std::fs;
use std::path::PathBuf;
use std::process;

use super::*;
use crate::log::{Booked, Totals};

/// Document 01's example.
const EXAMPLE: &[u8] =
    b"dev 1 0 8 0 16 5 6\nstart 5 0 65536 4\nwrite 5 69632 1\nwrite 5 73727 2\nrecv 5 64\nrecv 6 64\n";
const EXAMPLE_LINES: &str = "5 marked 2 reported 2 dropped 0\n6 marked 0 reported 0 dropped 0\n";
const NO_SUM: &str = "sum marked 0 reported 0 dropped 0\n";

/// A folder of one test, which goes when the test ends.
struct Folder(PathBuf);

impl Folder {
    fn new(test: &str) -> Folder {
        let path = env::temp_dir().join(format!("second-log-{}-{}", process::id(), test));
        fs::create_dir(&path).unwrap();
        Folder(path)
    }

    /// The whole name of a file in it, which need not be there.
    fn name(&self, file: &[u8]) -> Vec<u8> {
        self.0.join(OsStr::from_bytes(file)).as_os_str().as_bytes().to_vec()
    }

    /// Makes a file, and answers its whole name.
    fn file(&self, file: &[u8], bytes: &[u8]) -> Vec<u8> {
        let name = self.name(file);
        fs::write(OsStr::from_bytes(&name), bytes).unwrap();
        name
    }
}

impl Drop for Folder {
    fn drop(&mut self) {
        let _ = fs::remove_dir_all(&self.0);
    }
}

/// Plays bytes as a whole input.
fn output(names: &[u8]) -> String {
    let mut output = Vec::new();
    play(&mut &names[..], &mut output).unwrap();
    String::from_utf8(output).unwrap()
}

/// Plays these names, a line each.
fn printed(names: &[&[u8]]) -> String {
    let mut input = Vec::new();
    for name in names {
        input.extend_from_slice(name);
        input.push(b'\n');
    }
    output(&input)
}

/// What a file of these bytes gives, without the sum.
fn lines_of(bytes: &[u8]) -> String {
    lines(&log_of(&mut &bytes[..]), &mut Numbers::zeros())
}

// ---------------------------------------------------------------------------------------------------------------
// Files
// ---------------------------------------------------------------------------------------------------------------

#[test]
fn worked_example_as_a_file() {
    let folder = Folder::new("example");
    let name = folder.file(b"example", EXAMPLE);
    assert_eq!(printed(&[&name]), format!("{}sum marked 2 reported 2 dropped 0\n", EXAMPLE_LINES));
}

#[test]
fn several_files() {
    let folder = Folder::new("several");
    let example = folder.file(b"example", EXAMPLE);
    let dropped = folder
        .file(b"dropped", b"dev 1 0 8 0 16 9\nstart 9 0 0 10\nwrite 9 0 40960\nrecv 9 32\nwrite 9 0 12288\nstop 9");
    let missing = folder.name(b"missing");
    let dropped_line = "9 marked 13 reported 10 dropped 3\n";
    // A file that is named twice counts twice, and one that can't be opened makes nothing unknown.
    assert_eq!(
        printed(&[&dropped, &missing, &example, &dropped]),
        format!("{}bad\n{}{}sum marked 28 reported 22 dropped 6\n", dropped_line, EXAMPLE_LINES, dropped_line)
    );
    // Each begins before any device: what another file left is not there.
    let calls = folder.file(b"calls", b"write 5 0 4096\nstart 5 0 0 1\nwrite 5 0 4096\n");
    assert_eq!(printed(&[&example, &calls]), format!("{}sum marked 2 reported 2 dropped 0\n", EXAMPLE_LINES));
}

#[test]
fn no_names() {
    assert_eq!(output(b""), NO_SUM);
}

#[test]
fn names_that_cannot_be_opened() {
    let folder = Folder::new("bad");
    let example = folder.file(b"example", EXAMPLE);
    let bad = format!("bad\n{}", NO_SUM);
    assert_eq!(printed(&[b""]), bad);
    assert_eq!(printed(&[&folder.name(b"missing")]), bad);
    assert_eq!(printed(&[&folder.name(b"missing/example")]), bad);
    assert_eq!(printed(&[&folder.name(b"example/")]), bad);
    // A name with a 0 byte, also where what stands before it could be opened.
    for more in [&b"\0"[..], &b"\0x"[..], &b"\0\0"[..]].iter() {
        assert_eq!(printed(&[&[&example[..], more].concat()]), bad);
    }
    assert_eq!(printed(&[b"\0"]), bad);
    // All of the line is the name.
    for more in [" ", "\r", "\t", " 5", "/"].iter() {
        assert_eq!(printed(&[&[&example[..], more.as_bytes()].concat()]), bad, "{:?}", more);
        assert_eq!(printed(&[&[more.as_bytes(), &example[..]].concat()]) == bad, *more != "/", "{:?}", more);
    }
    assert_eq!(output(b"\n\n"), format!("bad\nbad\n{}", NO_SUM));
}

#[test]
fn names_of_any_bytes() {
    let folder = Folder::new("any");
    for name in
        [&b"a b"[..], b"a\r", b"\r", b" ", b"\xff\xfe", b"bad", b"--log", b"5 marked", b"*", b"'", b"\\n"].iter()
    {
        let name = folder.file(name, EXAMPLE);
        assert_eq!(printed(&[&name]), format!("{}sum marked 2 reported 2 dropped 0\n", EXAMPLE_LINES));
    }
    // `a` isn't there, but `a` with a carriage return is.
    assert_eq!(printed(&[&folder.name(b"a")]), format!("bad\n{}", NO_SUM));
}

#[test]
fn names_of_4095_and_4096_bytes() {
    let folder = Folder::new("long");
    folder.file(b"example", EXAMPLE);
    let place = folder.name(b"");
    let of_length = |bytes: usize| {
        let mut name = place.clone();
        name.resize(bytes - b"example".len(), b'/');
        name.extend_from_slice(b"example");
        assert_eq!(name.len(), bytes);
        name
    };
    let done = format!("{}sum marked 2 reported 2 dropped 0\n", EXAMPLE_LINES);
    for bytes in [1023, 1024, 4094, 4095].iter() {
        assert_eq!(printed(&[&of_length(*bytes)]), done, "{}", bytes);
        assert_eq!(output(&of_length(*bytes)), done, "{}", bytes);
    }
    for bytes in [4096, 4097, 8191, 100_000].iter() {
        assert_eq!(printed(&[&of_length(*bytes)]), format!("bad\n{}", NO_SUM), "{}", bytes);
        assert_eq!(output(&of_length(*bytes)), format!("bad\n{}", NO_SUM), "{}", bytes);
        // What stands before or behind the bound is no name of its own.
        let longer = [&of_length(4095)[..], &vec![b'x'; *bytes - 4095]].concat();
        let name = of_length(100);
        assert_eq!(printed(&[&longer, &name]), format!("bad\n{}", done), "{}", bytes);
    }
}

#[test]
fn ends_of_names() {
    let folder = Folder::new("ends");
    let example = folder.file(b"example", EXAMPLE);
    let done = format!("{}sum marked 2 reported 2 dropped 0\n", EXAMPLE_LINES);
    assert_eq!(output(&example), done, "the last line has no line feed");
    assert_eq!(output(&[&example[..], b"\n"].concat()), done);
    assert_eq!(
        output(&[&example[..], b"\n\n"].concat()),
        format!("{}bad\nsum marked 2 reported 2 dropped 0\n", EXAMPLE_LINES)
    );
    assert_eq!(output(&[b"\n", &example[..]].concat()), format!("bad\n{}", done));
    // A carriage return is part of the name.
    assert_eq!(output(&[&example[..], b"\r\n"].concat()), format!("bad\n{}", NO_SUM));
}

#[test]
fn files_without_a_device() {
    let folder = Folder::new("none");
    let empty = folder.file(b"empty", b"");
    let refused = folder.file(b"refused", b"dev 1 0 8 0 129 5\nlog 5\nstart 5 0 0 1\nwrite 5 0 1\n");
    let shelf = folder.file(b"shelf", b"dev2 1 0 8 0 16 2 4 18 5\n");
    assert_eq!(printed(&[&empty, &refused, &shelf]), NO_SUM);
    // A folder can be opened, and not read.
    let inside = folder.name(b"");
    assert_eq!(printed(&[&inside, b".", b"/"]), NO_SUM);
    let example = folder.file(b"example", EXAMPLE);
    assert_eq!(
        printed(&[&empty, &inside, &example, &refused]),
        format!("{}sum marked 2 reported 2 dropped 0\n", EXAMPLE_LINES)
    );
}

// ---------------------------------------------------------------------------------------------------------------
// What a file gives
// ---------------------------------------------------------------------------------------------------------------

#[test]
fn the_last_device() {
    let first = "dev 1 0 8 0 16 5 6\nstart 5 0 0 4\nwrite 5 0 16384\n";
    assert_eq!(lines_of(first.as_bytes()), "5 marked 4 reported 0 dropped 0\n6 marked 0 reported 0 dropped 0\n");
    // A refused one, and a line that isn't one, leave the device and its numbers.
    for line in
        ["dev 1 0 8 0 16 5 5\n", "dev 1 0 8 0 129 5\n", "dev 1 0 8 0 16\n", "dev 1 0 8 2 16 7\n", "dev\n", "bad\n"]
            .iter()
    {
        let file = format!("{}{}write 5 0 1\nstop 5\n", first, line);
        assert_eq!(
            lines_of(file.as_bytes()),
            "5 marked 4 reported 0 dropped 4\n6 marked 0 reported 0 dropped 0\n",
            "{}",
            line
        );
    }
    // A done one begins anew, with its own controllers in its own order.
    let file = format!("{}dev 1 0 8 0 16 7 6 5\nstart 6 0 0 4\nwrite 6 0 1\n", first);
    assert_eq!(
        lines_of(file.as_bytes()),
        "7 marked 0 reported 0 dropped 0\n6 marked 1 reported 0 dropped 0\n5 marked 0 reported 0 dropped 0\n"
    );
    assert_eq!(lines_of(format!("{}dev 1 0 8 0 16 65535", first).as_bytes()), "65535 marked 0 reported 0 dropped 0\n");
    let eight = "dev 1 0 8 0 16 8 7 6 5 4 3 2 0\n";
    assert_eq!(lines_of(eight.as_bytes()).lines().count(), 8);
    assert!(
        lines_of(eight.as_bytes()).ends_with("\n2 marked 0 reported 0 dropped 0\n0 marked 0 reported 0 dropped 0\n")
    );
}

#[test]
fn worked_numbers() {
    let file = b"dev 1 0 8 0 16 5\nstart 5 0 65536 4\nwrite 5 65536 16384\nrecv 5 32\n";
    assert_eq!(lines_of(file), "5 marked 4 reported 4 dropped 0\n");
    let more = [&file[..], b"write 5 65536 12288\nstop 5\n"].concat();
    assert_eq!(lines_of(&more), "5 marked 7 reported 4 dropped 3\n");
    let suspended = [&file[..], b"write 5 65536 12288\nsusp 5 1\nstop 5\n"].concat();
    assert_eq!(lines_of(&suspended), "5 marked 7 reported 4 dropped 0\n");
    let again = b"dev 1 0 8 0 16 5\nstart 5 0 65536 4\nwrite 5 65536 1\nrecv 5 32\nwrite 5 65536 1\n";
    assert_eq!(lines_of(again), "5 marked 2 reported 1 dropped 0\n");
}

#[test]
fn lines_of_a_file() {
    let begun = "dev 1 0 8 0 16 5\nstart 5 0 0 4\n";
    for (line, marked) in [
        ("write 5 0 1", 1),
        ("write 5 0 1\n", 1),
        // Bad lines, one of them of a shelf listing.
        ("write 5 0 1\r\n", 0),
        (" write 5 0 1\n", 0),
        ("write 5 0 1 \n", 0),
        ("write 5 0 1\0\n", 0),
        ("batch 5 0 1\n", 0),
        ("by 1 stop 5\n", 0),
    ]
    .iter()
    {
        let file = format!("{}{}", begun, line);
        assert_eq!(lines_of(file.as_bytes()), format!("5 marked {} reported 0 dropped 0\n", marked), "{:?}", line);
    }
    // A line of more than 1,023 bytes is bad, and ends at its line feed.
    for bytes in [1024, 1034, 4096, 5000, 1_000_000].iter() {
        let mut long = vec![b'x'; *bytes];
        long.extend_from_slice(b"write 5 0 1\nwrite 5 4096 1\n");
        let file = [begun.as_bytes(), &long].concat();
        assert_eq!(lines_of(&file), "5 marked 1 reported 0 dropped 0\n", "{}", bytes);
    }
    let mut long = b"write 5 0 4096".to_vec();
    long.resize(1024, b' ');
    assert_eq!(lines_of(&[begun.as_bytes(), &long].concat()), "5 marked 0 reported 0 dropped 0\n");
}

/// A reader of so many rows of lines, none of which is kept.
struct Rows {
    row: &'static [u8],
    left: usize,
    read: usize,
}

impl Read for Rows {
    fn read(&mut self, buffer: &mut [u8]) -> io::Result<usize> {
        assert!(buffer.len() <= 65536, "a file is read in pieces");
        let mut bytes = 0;
        for place in buffer.iter_mut() {
            if self.read == self.row.len() {
                self.left -= 1;
                self.read = 0;
            }
            if self.left == 0 {
                break;
            }
            *place = self.row[self.read];
            self.read += 1;
            bytes += 1;
        }
        Ok(bytes)
    }
}

#[test]
fn a_long_file() {
    let row = b"write 5 0 65536\nrecv 5 32\nwrite 5 4096 1\nstop 5\nstart 5 0 0 16\n";
    let mut file = (&b"dev 1 0 8 0 16 5\nstart 5 0 0 16\n"[..]).chain(Rows { row, left: 20_000, read: 0 });
    let log = log_of(&mut file);
    assert_eq!(lines(&log, &mut Numbers::zeros()), "5 marked 340000 reported 320000 dropped 20000\n");
    // One line all of zeros, 20 MB long, is bad.
    let mut file =
        (&b"dev 1 0 8 0 16 5\n"[..]).chain(io::repeat(0).take(20_000_000)).chain(&b"\nstart 5 0 0 1\nwrite 5 0 1"[..]);
    assert_eq!(lines(&log_of(&mut file), &mut Numbers::zeros()), "5 marked 1 reported 0 dropped 0\n");
}

/// Gives its bytes one by one, each behind a read that is interrupted, and fails in the end.
struct Failing {
    bytes: Vec<u8>,
    interrupted: bool,
}

impl Read for Failing {
    fn read(&mut self, buffer: &mut [u8]) -> io::Result<usize> {
        self.interrupted = !self.interrupted;
        if self.interrupted {
            return Err(io::Error::new(io::ErrorKind::Interrupted, "again"));
        }
        if self.bytes.is_empty() {
            return Err(io::Error::new(io::ErrorKind::Other, "gone"));
        }
        buffer[0] = self.bytes.remove(0);
        Ok(1)
    }
}

#[test]
fn files_that_cannot_be_read_on() {
    let failing = |bytes: &[u8]| Failing { bytes: bytes.to_vec(), interrupted: false };
    let numbers = |bytes: &[u8]| lines(&log_of(&mut failing(bytes)), &mut Numbers::zeros());
    assert_eq!(numbers(EXAMPLE), EXAMPLE_LINES);
    assert_eq!(numbers(b""), "");
    // The line that the failure broke off is none.
    assert_eq!(numbers(b"dev 1 0 8 0 16 5"), "");
    assert_eq!(numbers(b"dev 1 0 8 0 16 5\ndev 1 0 8 0 16 6"), "5 marked 0 reported 0 dropped 0\n");
    // Names that can't be read on are another matter: there is no sum over all.
    let mut output = Vec::new();
    assert!(play(&mut failing(b"\n/missing/file"), &mut output).is_err());
    assert_eq!(output, b"bad\n");
}

// ---------------------------------------------------------------------------------------------------------------
// Numbers that no file gets to
// ---------------------------------------------------------------------------------------------------------------

#[test]
fn unknown_controllers_and_sums() {
    let most = (1 << 64) - 1;
    let mut sum = Numbers::zeros();
    let mut log = Log::new(&[5, 6]);
    log.book(5, Booked::Marked(1 << 63));
    log.book(5, Booked::Dropped(1));
    assert_eq!(
        lines(&log, &mut sum),
        "5 marked 9223372036854775808 reported 0 dropped 1\n6 marked 0 reported 0 dropped 0\n"
    );
    assert_eq!(sum.to_string(), "marked 9223372036854775808 reported 0 dropped 1");
    // Another file with the same: its marked alone is unknown.
    lines(&log, &mut sum);
    assert_eq!(sum.to_string(), "marked unknown reported 0 dropped 2");
    log.book(6, Booked::Reported(most));
    lines(&log, &mut sum);
    assert_eq!(sum.to_string(), format!("marked unknown reported {} dropped 3", most));
    log.book(6, Booked::Reported(1));
    assert_eq!(
        lines(&log, &mut sum),
        "5 marked 9223372036854775808 reported 0 dropped 1\n6 marked unknown reported unknown dropped unknown\n"
    );
    assert_eq!(sum.to_string(), "marked unknown reported unknown dropped unknown");
    // A controller's own totals are what is summed, of whichever device.
    let mut sum = Numbers::zeros();
    let log = Log { controllers: vec![(0, Totals { marked: most, reported: 1, dropped: 2 }); 2] };
    lines(&log, &mut sum);
    assert_eq!(sum.to_string(), "marked unknown reported 2 dropped 4");
}
