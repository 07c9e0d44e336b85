//! Input that is cases of one size, one after another with nothing between them.

use std::io::{self, ErrorKind, Read, Write};

/// Writes the answer to each case of `input`, in their order. `answer` has none for bytes that aren't in the form; that
/// and half a case are an error, as no answer would be right. The answers before it are written.
pub fn play_cases<R: Read, W: Write>(
    input: &mut R,
    output: &mut W,
    case_bytes: usize,
    answer: &dyn Fn(&[u8]) -> Option<Vec<u8>>,
) -> io::Result<()> {
    loop {
        let mut bytes = Vec::new();
        input.by_ref().take(case_bytes as u64).read_to_end(&mut bytes)?;
        if bytes.is_empty() {
            return output.flush();
        }
        let answered = if bytes.len() == case_bytes { answer(&bytes) } else { None };
        match answered {
            Some(answered) => output.write_all(&answered)?,
            None => {
                output.flush()?;
                return Err(io::Error::new(ErrorKind::InvalidData, "a case is not in the form"));
            }
        }
    }
}

#[cfg(test)]
mod tests {
    use super::*;

    /// Cases of 3 bytes, answered by their first one; one that begins with 9 is not in the form.
    fn played(mut input: &[u8]) -> (Vec<u8>, bool) {
        let first = |bytes: &[u8]| bytes.first().filter(|byte| **byte != 9).map(|byte| vec![*byte]);
        let mut output = Vec::new();
        let ended = play_cases(&mut input, &mut output, 3, &first).is_ok();
        (output, ended)
    }

    #[test]
    fn an_answer_for_each_case() {
        assert_eq!(played(&[]), (vec![], true));
        assert_eq!(played(&[1, 0, 0, 2, 0, 0]), (vec![1, 2], true));
    }

    #[test]
    fn what_is_not_in_the_form_ends_it() {
        assert_eq!(played(&[1, 0, 0, 2, 0]), (vec![1], false));
        assert_eq!(played(&[1, 0, 0, 9, 0, 0, 2, 0, 0]), (vec![1], false));
    }
}
