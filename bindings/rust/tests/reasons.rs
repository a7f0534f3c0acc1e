//! Why a file of records is bad: the reason as a value, and in words; and where the bytes of a good one stand.

use denkumari::records::{extent, line_at_fault, read, reason, Format, Reason};

/// The reason of a text read from a load address on, whose line is the one that `line_at_fault` names, and its words.
fn of(format: Format, text: &str, load: u32) -> (u64, Reason, String) {
    let bad = reason(format, text.as_bytes(), load).unwrap();
    assert_eq!(line_at_fault(format, text.as_bytes(), load), Some(bad.line));
    (bad.line, bad.reason, bad.quoted(text.as_bytes()))
}

#[test]
fn a_good_file_has_none() {
    assert_eq!(reason(Format::IntelHex, b":0100000041BE\r\n:00000001ff", 0), None);
    assert_eq!(reason(Format::SRecords, b"s1040000AA51\nS9030000FC\n", 0), None);
}

#[test]
fn where_bytes_stand() {
    let text = *b":01800200413C\n:01800000423D\n:00FFFF0002\n:00000001FF\n";
    let found = extent(Format::IntelHex, &text).unwrap();
    assert_eq!(found, 0x8000..0x8003);
    let (mut bytes, mut offsets, mut sizes) = (vec![9; (found.end - found.start) as usize], [0; 2], [0; 2]);
    assert_eq!(read(Format::IntelHex, &text, found.start as u32, &mut bytes, &mut offsets, &mut sizes), Ok(2));
    assert_eq!((bytes, offsets, sizes), (vec![0x42, 9, 0x41], [0, 16], [8, 8]));
    assert_eq!(extent(Format::SRecords, b"S306FFFFFFFF2AD3\nS70500000000FA\n"), Ok(0xffff_ffff..0x1_0000_0000));
    assert_eq!(extent(Format::SRecords, b"S9030000FC\n"), Ok(0..0));
    assert_eq!(extent(Format::SRecords, &text).map_err(|refusal| refusal.number()), Err(4));
}

#[test]
fn each_reason_of_intel_hex() {
    let cases = [
        (":0100000041BE\n\n", 0, 1, Reason::NoStart, "line 2: it does not begin with a colon"),
        (
            ":01000000G1BE\n",
            0,
            0,
            Reason::NoDigit { place: 9, character: b'G' },
            "line 1: character 10 is no hex digit: 'G': \":01000000G1BE\"",
        ),
        (
            ":0200000041BE\r\n",
            0,
            0,
            Reason::Length { found: 13, wanted: 15 },
            "line 1: it has 13 characters, should have 15: \":0200000041BE\"",
        ),
        (":0100000100FE\n", 0, 0, Reason::Count { found: 1, wanted: 0 }, "line 1: the count is 01, and its type requires 00: \":0100000100FE\""),
        (
            ":0100000041BF\n",
            0,
            0,
            Reason::Checksum { found: 0xBF, wanted: 0xBE },
            "line 1: the checksum is BF, should be BE: \":0100000041BF\"",
        ),
        (
            ":0400000500000000F7\n",
            0,
            0,
            Reason::Type { found: 5 },
            "line 1: type 05 is not read (types 00, 01 and 04 are): \":0400000500000000F7\"",
        ),
        (":00000101FE\n", 0, 0, Reason::Field { found: 1 }, "line 1: its address field is 0001, should be 0000: \":00000101FE\""),
        (
            ":02000004FFFFFC\n:02FFFF001122CD\n",
            0,
            1,
            Reason::PastLast { address: 0x1_0000_0000, last: 0xFFFF_FFFF },
            "line 2: its last byte is at 0x100000000, past the last address 0xFFFFFFFF: \":02FFFF001122CD\"",
        ),
        (
            ":0100100041AE\n:0100080042B5\n:00000001FF\n",
            0x20,
            0,
            Reason::BelowLoad { address: 16, lowest: 8 },
            "line 1: address 0x10 is below the load address: the lowest address in the file is 0x8: \":0100100041AE\"",
        ),
        (
            ":0100000041BE\n:020004001122C7\n:020003001122C8\n",
            0,
            2,
            Reason::GivenTwice { by: 1, address: 4 },
            "line 3: the byte at 0x4 is given by line 2 already: \":020003001122C8\"",
        ),
        (":00000001FF\n:00000001FF\n", 0, 1, Reason::BehindEnd, "line 2: nothing may stand behind the end record: \":00000001FF\""),
        (":0100000041BE\n", 0, 1, Reason::NoEnd, "line 2: the end record is missing"),
    ];
    for (text, load, line, why, words) in cases {
        assert_eq!(of(Format::IntelHex, text, load), (line, why, words.to_string()));
    }
}

#[test]
fn of_s_records() {
    let (line, why, words) = of(Format::SRecords, "S1040000AA51\nS70500000000FA\n", 0);
    assert_eq!((line, why), (1, Reason::Width { found: 4, in_force: 2 }));
    assert_eq!(words, "line 2: its address has 4 bytes, those before it 2: mixed widths: \"S70500000000FA\"");
    assert_eq!(of(Format::SRecords, "S5030001FB\n", 0).1, Reason::Type { found: b'5' });
    assert_eq!(of(Format::SRecords, "S303AAAAA8\n", 0).1, Reason::Count { found: 3, wanted: 5 });
    assert_eq!(of(Format::SRecords, "S105FFFF1122C9\n", 0).1, Reason::PastLast { address: 0x10000, last: 0xFFFF });
    assert_eq!(of(Format::SRecords, ":00000001FF\n", 0).1, Reason::NoStart);
}
