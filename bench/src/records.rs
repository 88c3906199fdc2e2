//! Records and the printed verdict: 01, "Records and the printed verdict".

use crate::validator::{validate, Verdict, STORE};
use std::io::Write;

const HEADER: usize = 6;

/// What `verdict` prints for an input.
pub fn verdicts(mut input: &[u8]) -> Vec<u8> {
    let mut out = Vec::new();
    let mut store = vec![0; STORE];
    let mut number = 0;
    while !input.is_empty() {
        number += 1;
        let (verdict, rest) = next_record(input, &mut store);
        print(&mut out, number, verdict);
        match rest {
            Some(rest) => input = rest,
            None => break,
        }
    }
    out
}

/// The verdict of the first record and what follows it, nothing if the record is cut.
fn next_record<'a>(input: &'a [u8], store: &mut [u8]) -> (Verdict, Option<&'a [u8]>) {
    let Some((header, behind)) = input.split_at_checked(HEADER) else { return (Verdict::Refused(6), None) };
    let length = u32::from_le_bytes([header[0], header[1], header[2], header[3]]) as usize;
    let kind = u16::from_le_bytes([header[4], header[5]]);
    let (payload, rest) = match behind.split_at_checked(length) {
        Some((payload, rest)) => (Some(payload), Some(rest)),
        None => (None, None),
    };
    if kind != 1 {
        return (Verdict::Refused(7), rest);
    }
    let verdict = match payload {
        Some([s0, s1, a0, a1, image @ ..]) => {
            let size = u16::from_le_bytes([*s0, *s1]).into();
            let start = u16::from_le_bytes([*a0, *a1]).into();
            validate(image, size, start, store)
        }
        _ => Verdict::Refused(6),
    };
    (verdict, rest)
}

fn print(out: &mut Vec<u8>, number: u64, verdict: Verdict) {
    match verdict {
        Verdict::Passed { places } => writeln!(out, "{number} passed {places}"),
        Verdict::Fault { fault, at, after } => writeln!(out, "{number} fault {fault} at {at} after {after}"),
        Verdict::Refused(refusal) => writeln!(out, "{number} refused {refusal}"),
    }
    .expect("a vector takes it all");
}
