//! replay FILE..: the verdict on each block, which stands in its file behind the ledger before it, as two lines of hexadecimal
//! digits of either case. The status is 0 where every block agrees, and else 1; a line with another character or with an odd count of
//! digits is refused.

use std::process::ExitCode;

const DONE: u32 = 0;
const NO_LEDGER: u32 = 9;
const NO_BLOCK: u32 = 10;
const WRONG_BASE: u32 = 11;
const WRONG_OUTCOME: u32 = 12;
const WRONG_STATE: u32 = 13;

/// `struct avm_difference` of `avm.h`.
#[repr(C)]
#[derive(Default)]
struct Difference {
    entry: u64,
    ending: u32,
    number: u32,
    place: u32,
}

unsafe extern "C" {
    fn avm_c_replay(
        ledger: *const u8,
        ledger_len: usize,
        block: *const u8,
        block_len: usize,
        digest: *mut u8,
        difference: *mut Difference,
    ) -> u32;
}

enum Verdict {
    Agrees([u8; 32]),
    WrongOutcome(Difference),
    Other(u32),
}

/// The verdict on a block over the ledger before it.
fn replay(ledger: &[u8], block: &[u8]) -> Verdict {
    let mut digest = [0; 32];
    let mut difference = Difference::default();
    // SAFETY: a slice's pointer is not null, also of no bytes; the digest has 32 bytes; nothing overlaps what is written.
    let status = unsafe {
        avm_c_replay(
            ledger.as_ptr(),
            ledger.len(),
            block.as_ptr(),
            block.len(),
            digest.as_mut_ptr(),
            &mut difference,
        )
    };
    match status {
        DONE => Verdict::Agrees(digest),
        WRONG_OUTCOME => Verdict::WrongOutcome(difference),
        _ => Verdict::Other(status),
    }
}

fn words_of(difference: &Difference) -> String {
    let (number, place) = (difference.number, difference.place);
    let ending = match difference.ending {
        0 => "approved".to_string(),
        1 => "rejected".to_string(),
        2 => format!("faulted {number} {place}"),
        3 => format!("refused {number}"),
        4 => "cleared gone".to_string(),
        5 => "cleared rejected".to_string(),
        _ => format!("cleared faulted {number} {place}"),
    };
    format!("wrong outcome {} {ending}", difference.entry)
}

/// The bytes that a line encodes. None has another character, or an odd count of digits.
fn bytes_of(line: &[u8]) -> Option<Vec<u8>> {
    let value = |digit: &u8| char::from(*digit).to_digit(16);
    let pairs = line.chunks(2).map(|pair| match pair {
        [high, low] => Some((value(high)? << 4 | value(low)?) as u8),
        _ => None,
    });
    pairs.collect()
}

/// A file's lines, without their ends.
fn lines_of(text: &[u8]) -> impl Iterator<Item = &[u8]> {
    text.split_inclusive(|byte| *byte == b'\n')
        .map(|line| line.strip_suffix(b"\r\n").or(line.strip_suffix(b"\n")).unwrap_or(line))
}

fn main() -> ExitCode {
    let mut agree = true;
    for name in std::env::args().skip(1) {
        let text = std::fs::read(&name).expect("a file of two lines");
        let mut lines = lines_of(&text).map(bytes_of);
        let (Some(ledger), Some(block)) = (lines.next().expect("a ledger"), lines.next().expect("a block")) else {
            println!("refused");
            agree = false;
            continue;
        };
        match replay(&ledger, &block) {
            Verdict::Agrees(digest) => {
                let digits: String = digest.iter().map(|byte| format!("{byte:02x}")).collect();
                println!("agrees {digits}");
                continue;
            }
            Verdict::WrongOutcome(difference) => println!("{}", words_of(&difference)),
            Verdict::Other(NO_LEDGER) => println!("no ledger"),
            Verdict::Other(NO_BLOCK) => println!("no block"),
            Verdict::Other(WRONG_BASE) => println!("wrong base"),
            Verdict::Other(WRONG_STATE) => println!("wrong state"),
            Verdict::Other(status) => println!("status {status}"),
        }
        agree = false;
    }
    ExitCode::from(u8::from(!agree))
}
