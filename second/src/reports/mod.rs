//! Cases with reports of any kind, and an index into each (change request W1). tests/REPORTS.md has the form of a case
//! and of its answer.

mod case;
mod reader;
#[cfg(test)]
mod tests;

use std::io::{self, Read, Write};

use crate::cases::play_cases;
use crate::little_endian::put;
use crate::report::Descriptor;
use crate::rules::Refusal;

use self::case::{read_case, Case, CASE_BYTES};
use self::reader::{descriptor_alone, descriptor_at, read};

/// What the reader answers about a report and about one of its indexes. All is 0 save what is said of a refusal, and of
/// the run by itself.
#[derive(Clone, Copy, Debug, Default, PartialEq, Eq)]
struct Answer {
    refusal: Refusal,
    bad_index: u64,
    suspended: bool,
    more: bool,
    identifier: u64,
    granularity: u64,
    count: u64,
    refusal_at: Refusal,
    address: u128,
    length: u128,
    run_address: u128,
    run_length: u128,
}

/// Answers each case of `input`, in their order.
pub fn play<R: Read, W: Write>(input: &mut R, output: &mut W) -> io::Result<()> {
    play_cases(input, output, CASE_BYTES, &|bytes| read_case(bytes).map(|case| answer_bytes(&answer(&case))))
}

const NO_RUN: Descriptor = Descriptor { address: 0, length: 0 };

/// An index of a refused report is refused as the report is; the run by itself is asked in any case.
fn answer(case: &Case) -> Answer {
    let run = descriptor_alone(&case.lent, case.index).unwrap_or(NO_RUN);
    let alone = Answer { run_address: run.address, run_length: run.length, ..Answer::default() };
    match read(&case.lent) {
        Err(refused) => {
            Answer { refusal: refused.number, bad_index: refused.bad_index, refusal_at: refused.number, ..alone }
        }
        Ok(report) => {
            let (refusal_at, Descriptor { address, length }) = match descriptor_at(&report, case.index) {
                Ok(descriptor) => (0, descriptor),
                Err(refusal) => (refusal, NO_RUN),
            };
            Answer {
                suspended: report.suspended,
                more: report.more,
                identifier: report.identifier,
                granularity: report.granularity,
                count: report.descriptors.len() as u64,
                refusal_at,
                address,
                length,
                ..alone
            }
        }
    }
}

fn answer_bytes(answer: &Answer) -> Vec<u8> {
    let mut bytes = Vec::new();
    put(&mut bytes, u128::from(answer.refusal), 1);
    put(&mut bytes, u128::from(answer.bad_index), 8);
    put(&mut bytes, u128::from(answer.suspended), 1);
    put(&mut bytes, u128::from(answer.more), 1);
    put(&mut bytes, u128::from(answer.identifier), 2);
    put(&mut bytes, u128::from(answer.granularity), 2);
    put(&mut bytes, u128::from(answer.count), 4);
    put(&mut bytes, u128::from(answer.refusal_at), 1);
    put(&mut bytes, answer.address, 8);
    put(&mut bytes, answer.length, 4);
    put(&mut bytes, answer.run_address, 8);
    put(&mut bytes, answer.run_length, 4);
    bytes
}
