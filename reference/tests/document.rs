//! What document 01 itself shows: the worked run and the marked bracket cases.

use reference::answer;
use reference::call::{judge_target, Way};
use reference::program::{run, Fields};
use reference::record::Ring;
use reference::segments::SegmentFile;
use reference::state::Request;
use reference::trace::digest;

/// A segment record; one gate, or none.
fn segment(number: u16, brackets: [u8; 3], mode: u8, gate: Option<u32>) -> [u8; 40] {
    let mut bytes = [0; 40];
    bytes[..2].copy_from_slice(&number.to_be_bytes());
    bytes[2..5].copy_from_slice(&brackets);
    bytes[5] = mode;
    if let Some(gate) = gate {
        bytes[6] = 1;
        bytes[8..12].copy_from_slice(&gate.to_be_bytes());
    }
    bytes
}

fn request(kind: u8, first: u8, instruction: u8, numbers: [u32; 5]) -> [u8; 24] {
    Fields { kind, first, instruction, zero: 0, numbers }.to_bytes()
}

#[test]
fn worked_run() {
    let file = [segment(100, [1, 1, 63], 5, Some(16)), segment(200, [33, 33, 33], 5, None)].concat();
    let input = [
        request(0, 33, 0, [0; 5]),
        request(2, 33, 0, [28, 200, 0, 0, 0]),
        request(2, 33, 0, [29, 50, 0, 0, 0]),
        request(1, 1, 0, [8, 100, 200, 100, 16]),
        request(2, 0, 0, [9, 1, 0, 0, 0]),
        request(1, 1, 1, [0; 5]),
        request(1, 2, 1, [0; 5]),
        request(1, 1, 0, [8, 100, 200, 100, 17]),
    ]
    .concat();
    let expected = "0 0 0 33 0 1 0 0 0 8 0\n2 0 0 33 0 1 0 0 0 0 0\n2 0 0 33 0 1 0 0 0 0 0\n\
        1 0 0 1 1 2 1 100 16 40 72\n2 15 0 1 1 2 1 0 0 0 0\n1 13 0 1 1 2 1 0 0 0 0\n\
        1 0 0 33 0 2 1 200 50 8 100\n1 3 5 33 0 2 1 0 0 0 0\n";
    let mut out = Vec::new();
    run(file, &mut input.as_slice(), &mut out).unwrap();
    assert_eq!(String::from_utf8(out).unwrap(), expected);
}

/// "Execute on, gate hit, fault fitting": so either fault may be the fitting one.
fn bracket_case(brackets: [u8; 3], caller: u32) -> Result<(Way, Ring), u32> {
    let file = segment(100, brackets, 4, Some(16));
    let fault = if caller < u32::from(brackets[0]) { 2 } else { 1 };
    let request = Request { fault, target_segment: 100, target_offset: 16, ..Request::default() };
    judge_target(SegmentFile::new(&file), Ring(caller), &request).map_err(|refusal| {
        assert_eq!(refusal, answer::target(refusal.reason));
        refusal.reason
    })
}

#[test]
fn marked_bracket_cases() {
    assert_eq!(bracket_case([0, 63, 63], 40), Err(4));
    assert_eq!(bracket_case([0, 1, 63], 1), Err(4));
    assert_eq!(bracket_case([0, 1, 63], 2), Ok((Way::Inward, Ring(1))));
    assert_eq!(bracket_case([1, 1, 63], 33), Ok((Way::Inward, Ring(1))));
    assert_eq!(bracket_case([1, 1, 63], 0), Err(6));
    assert_eq!(bracket_case([0, 0, 1], 1), Ok((Way::Inward, Ring(0))));
    assert_eq!(bracket_case([0, 0, 1], 2), Err(3));
    assert_eq!(bracket_case([32, 33, 35], 31), Ok((Way::Outward, Ring(32))));
    assert_eq!(bracket_case([32, 33, 35], 33), Err(4));
    assert_eq!(bracket_case([32, 33, 35], 35), Ok((Way::Inward, Ring(33))));
    assert_eq!(bracket_case([32, 33, 35], 36), Err(3));
}

#[test]
fn digest_as_defined() {
    let numbers: Vec<u32> = (0..3000u32).map(|k| k.wrapping_mul(2_654_435_761) ^ (k << 29)).collect();
    let defined =
        numbers.iter().chain(&[u32::MAX; 9]).fold(7u64, |d, x| (d * 65_599 + u64::from(*x) + 1) % 4_294_967_291);
    assert_eq!(digest(&[numbers, vec![u32::MAX; 9]].concat()), defined);
}

#[test]
fn short_rest_gives_17() {
    let mut out = Vec::new();
    run(Vec::new(), &mut [0u8; 23].as_slice(), &mut out).unwrap();
    assert_eq!(out, b"9 17 0 0 0 0 0 0 0 0 0\n");
}
