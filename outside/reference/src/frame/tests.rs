//! Cases written by hand from the paper: what is read, what is refused and where, what is written.

use super::Operation::{And, Xor};
use super::*;

const fn header(inputs: u8, gates: u16, outputs: u8) -> Frame {
    Frame::Header {
        inputs,
        gates,
        outputs,
    }
}

const fn gate(operation: Operation, first: u16, second: u16) -> Frame {
    let operands = [first, second];
    Frame::Gate {
        operation,
        operands,
    }
}

const fn extend(operation: Operation, first: u16, second: u16) -> Frame {
    let operands = [first, second];
    Frame::Extend {
        operation,
        operands,
    }
}

const fn resolve(first: u16, second: u16, variable: u16) -> Frame {
    Frame::Resolve {
        first,
        second,
        variable,
    }
}

const fn report(refusal: u8, line: u64, steps: u16, clauses: u16) -> Frame {
    Frame::Report {
        refusal,
        line,
        steps,
        clauses,
    }
}

/// Each kind, once plain and once with fields at their limits; samples P1 and P2 print the first
/// two reports.
const LINES: [(&str, Frame); 17] = [
    ("0101000101\n", header(1, 1, 1)),
    ("01FFFFFF00\n", header(255, 65_535, 0)),
    ("0200020003\n", gate(And, 2, 3)),
    ("02FFFF0000\n", gate(And, 65_535, 0)),
    ("0300020003\n", gate(Xor, 2, 3)),
    ("030000FFFF\n", gate(Xor, 0, 65_535)),
    ("040004\n", Frame::Output { literal: 4 }),
    ("04FFFF\n", Frame::Output { literal: 65_535 }),
    ("11000A000B0001\n", resolve(10, 11, 1)),
    ("11FFFF0000ABCD\n", resolve(65_535, 0, 0xABCD)),
    ("1200020004\n", extend(And, 2, 4)),
    ("12FFFF0000\n", extend(And, 65_535, 0)),
    ("1300020004\n", extend(Xor, 2, 4)),
    ("130000FFFF\n", extend(Xor, 0, 65_535)),
    ("21000000000004000D\n", report(0, 0, 4, 13)),
    ("210F00000000000000\n", report(15, 0, 0, 0)),
    (
        "21FFFFFFFFFFFFFFFF\n",
        report(255, 0xFF_FFFF, 65_535, 65_535),
    ),
];

const WRITER_REFUSES: Result<usize, Refusal> = Err(Refusal {
    number: 16,
    line: 0,
});

fn refused(text: &[u8], number: u8, line: u64) {
    let shown = String::from_utf8_lossy(&text[..text.len().min(40)]);
    assert_eq!(
        read_frame(text),
        Err(Refusal { number, line }),
        "{shown:?} of {} bytes",
        text.len()
    );
}

#[test]
fn every_kind_is_read_and_written() {
    for (line, frame) in LINES {
        assert_eq!(read_frame(line.as_bytes()), Ok(frame), "{line:?}");
        let mut out = [0xA5; 24];
        assert_eq!(write_frame(&frame, &mut out), Ok(line.len()), "{line:?}");
        assert_eq!(&out[..line.len()], line.as_bytes());
        assert!(out[line.len()..].iter().all(|&byte| byte == 0));
    }
}

#[test]
fn fields_make_the_frame_that_they_came_from() {
    for (_, frame) in LINES {
        assert_eq!(
            Frame::from_fields(frame.kind(), frame.fields()),
            Some(frame)
        );
    }
}

#[test]
fn a_fault_of_the_bytes_is_2() {
    refused(b"", 2, 1);
    refused(b"040004", 2, 1);
    refused(b"0", 2, 1);
    refused(b"G", 2, 1);
    refused(b"040004\r\n", 2, 1);
    refused(b"\r\n", 2, 1);
    refused(b"04000a\n", 2, 1);
    refused(b"04 0004\n", 2, 1);
    refused(b"04000\xFF\n", 2, 1);
    refused(b"04000:\n", 2, 1);
    refused(b"04000@\n", 2, 1);
    refused(b"04000/\n", 2, 1);
}

#[test]
fn the_bytes_come_before_kind_and_length() {
    refused(b"00G\n", 2, 1);
    refused(b"0400040\r\n", 2, 1);
    let mut long = vec![b'0'; 70_000];
    refused(&long, 2, 1);
    long.extend(b"G");
    refused(&long, 2, 1);
    long.extend(b"\n");
    refused(&long, 2, 1);
}

#[test]
fn a_wrong_length_is_3() {
    refused(b"\n", 3, 1);
    refused(b"0\n", 3, 1);
    refused(b"04\n", 3, 1);
    refused(b"04000\n", 3, 1);
    refused(b"0400040\n", 3, 1);
    refused(b"04000400\n", 3, 1);
    let mut long = vec![b'0'; 70_000];
    long.extend(b"\n");
    refused(&long, 3, 1);
}

#[test]
fn a_kind_outside_the_table_is_3() {
    for kind in [0x00, 0x05, 0x10, 0x14, 0x20, 0x22, 0xFF] {
        for digits in 0..20 {
            let line = format!("{kind:02X}{}\n", "0".repeat(digits));
            refused(line.as_bytes(), 3, 1);
        }
        assert_eq!(Frame::from_fields(kind, [0; 4]), None);
    }
}

#[test]
fn a_second_line_is_refused_behind_the_first() {
    refused(b"040004\n040004\n", 3, 2);
    refused(b"040004\n\n", 3, 2);
    refused(b"040004\n0\n", 3, 2);
    refused(b"040004\n040004", 2, 2);
    refused(b"040004\n0", 2, 2);
    refused(b"040004\nG\n", 2, 2);
    refused(b"040004\n\r\n", 2, 2);
    refused(b"040004\n040004\nG\n", 3, 2);
    refused(b"\n040004\n", 3, 1);
    refused(b"05\nG\n", 3, 1);
    refused(b"G\n05\n", 2, 1);
}

#[test]
fn a_short_buffer_is_16_and_all_zero() {
    for (line, frame) in LINES {
        for length in 0..line.len() {
            let mut out = vec![0xA5; length];
            assert_eq!(write_frame(&frame, &mut out), WRITER_REFUSES, "{line:?}");
            assert_eq!(out, vec![0; length]);
        }
        let mut out = vec![0xA5; line.len()];
        assert_eq!(write_frame(&frame, &mut out), Ok(line.len()));
        assert_eq!(out, line.as_bytes());
    }
}

#[test]
fn a_report_names_lines_up_to_ffffff() {
    let mut out = [0xA5; 19];
    assert_eq!(write_frame(&report(1, 0xFF_FFFE, 2, 3), &mut out), Ok(19));
    assert_eq!(&out, b"2101FFFFFE00020003\n");
    assert_eq!(write_frame(&report(1, 0xFF_FFFF, 2, 3), &mut out), Ok(19));
    assert_eq!(&out, b"2101FFFFFF00020003\n");
    for line in [0x100_0000, u64::MAX] {
        out.fill(0xA5);
        assert_eq!(
            write_frame(&report(1, line, 2, 3), &mut out),
            WRITER_REFUSES
        );
        assert_eq!(out, [0; 19]);
    }
}

#[test]
fn a_field_beyond_its_bytes_makes_no_frame() {
    let limits: [(u8, &[u64]); 8] = [
        (0x01, &[0xFF, 0xFFFF, 0xFF]),
        (0x02, &[0xFFFF, 0xFFFF]),
        (0x03, &[0xFFFF, 0xFFFF]),
        (0x04, &[0xFFFF]),
        (0x11, &[0xFFFF, 0xFFFF, 0xFFFF]),
        (0x12, &[0xFFFF, 0xFFFF]),
        (0x13, &[0xFFFF, 0xFFFF]),
        (0x21, &[0xFF, u64::MAX, 0xFFFF, 0xFFFF]),
    ];
    for (kind, limits) in limits {
        let mut fields = [u64::MAX; 4];
        fields[..limits.len()].copy_from_slice(limits);
        assert!(Frame::from_fields(kind, fields).is_some(), "{kind:02X}");
        for (place, limit) in limits.iter().enumerate() {
            if let Some(above) = limit.checked_add(1) {
                let mut fields = fields;
                fields[place] = above;
                assert_eq!(Frame::from_fields(kind, fields), None, "{kind:02X}");
            }
        }
    }
}
