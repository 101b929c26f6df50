//! The bounds of set texts, through the library and the second reader: each with the last text that
//! is accepted and the first that is refused.

mod reading;

use reading::Reading;
use reference::records::{field, CELL_BYTES, STATEMENT_BYTES};
use reference::Instruction;

/// The counts of statements and cells.
fn accepted(text: &str) -> (usize, usize) {
    let read = Reading::new().read_with_room(text.as_bytes());
    let read = read.unwrap_or_else(|refusal| panic!("{refusal:?}: {text:?}"));
    (
        read.set.len() / STATEMENT_BYTES,
        read.map.len() / CELL_BYTES,
    )
}

/// The refusal's number and place.
fn refused(text: &[u8]) -> (u8, u32) {
    let refusal = Reading::new().read_with_room(text).unwrap_err();
    (refusal.number, refusal.place)
}

#[test]
fn texts_of_16384_and_16385_bytes() {
    let start = "FENCE\n.\n1 2\n";
    let rest = 16_384 - start.len();
    for filling in ["\n", " ", "\t", "#"] {
        let text = format!("{start}{}", filling.repeat(rest));
        assert_eq!(accepted(&text), (2, 1));
        assert_eq!(refused(format!("{text}{filling}").as_bytes()), (1, 0));
        // In front of the statements, a comment needs its LF.
        let text = format!("{}\n{start}", filling.repeat(rest - 1));
        assert_eq!(accepted(&text), (2, 1));
        assert_eq!(refused(format!("{filling}{text}").as_bytes()), (1, 0));
    }
    // Length comes before all else.
    assert_eq!(refused(&[0; 16_384]), (2, 1));
    assert_eq!(refused(&[0; 16_385]), (1, 0));
    assert_eq!(refused(&[b'\n'; 100_000]), (1, 0));
    // The last line of the longest text.
    let lines = format!("{}x", "\n".repeat(16_383));
    assert_eq!(refused(lines.as_bytes()), (2, 16_384));
    let lines = "\n".repeat(16_384);
    assert_eq!(refused(lines.as_bytes()), (4, 0));
}

#[test]
fn statements_of_32_and_33_with_and_without_a_gained_halt() {
    let fences = |count| "FENCE\n".repeat(count);
    // The HALT is written.
    assert_eq!(accepted(&format!("{}HALT\n.", fences(31))), (32, 0));
    assert_eq!(refused(format!("{}HALT\n.", fences(32)).as_bytes()), (5, 0));
    // The HALT is gained.
    assert_eq!(accepted(&format!("{}.", fences(31))), (32, 0));
    assert_eq!(refused(format!("{}.", fences(32)).as_bytes()), (5, 0));
    for last in ["EXIT 1", "JMP 0", "JMP 31"] {
        assert_eq!(accepted(&format!("{}{last}\n.", fences(31))), (32, 0));
    }
    // A conditional jump gains one.
    assert_eq!(refused(format!("{}JZ 0\n.", fences(31)).as_bytes()), (5, 0));
    assert_eq!(accepted(&format!("{}JZ 31\n.", fences(30))), (32, 0));
    assert_eq!(
        refused(format!("{}JZ 32\n.", fences(30)).as_bytes()),
        (6, 0)
    );
    // In the last thread too.
    let others = "HALT\n.\n".repeat(3);
    assert_eq!(accepted(&format!("{others}{}.", fences(31))), (35, 0));
    let text = format!("{others}{}.", fences(32));
    assert_eq!(refused(text.as_bytes()), (5, 0));
}

#[test]
fn the_gained_halt_is_a_record() {
    let read = Reading::new().read_with_room(b"JZ 1\n.\n").unwrap();
    let halt = &read.set[STATEMENT_BYTES..];
    assert_eq!((halt[1], field(halt, 4), field(halt, 6)), (17, 0, 1));
}

#[test]
fn threads_of_4_and_5() {
    let full = format!("{}.\n", "FENCE\n".repeat(31));
    assert_eq!(accepted(&full.repeat(4)), (128, 0));
    assert_eq!(refused(full.repeat(5).as_bytes()), (4, 0));
    assert_eq!(refused("HALT\n.\n".repeat(300).as_bytes()), (4, 0));
    // An empty one is a thread too: 5 alone, and 4 as the fifth.
    assert_eq!(refused(b"HALT\n.\n.\n"), (5, 0));
    assert_eq!(
        refused(format!("{}.\n", "HALT\n.\n".repeat(4)).as_bytes()),
        (4, 0)
    );
}

#[test]
fn checkpoints_of_8_and_9() {
    let checks = |from: u16, to: u16| -> String {
        let lines = (from..to).map(|number| format!("CHECK {}\n", number * 8_000));
        lines.collect::<String>() + ".\n"
    };
    assert_eq!(accepted(&checks(0, 8)), (9, 0));
    assert_eq!(refused(checks(0, 9).as_bytes()), (7, 0));
    // Each number once in the whole set.
    let shared = format!("{}{}", checks(0, 8), checks(0, 8));
    assert_eq!(accepted(&shared), (18, 0));
    let spread = [checks(0, 3), checks(2, 5), checks(4, 8)].concat();
    assert_eq!(accepted(&spread), (13, 0));
    let spread = [checks(0, 3), checks(2, 5), checks(4, 8), checks(8, 9)].concat();
    assert_eq!(refused(spread.as_bytes()), (7, 0));
}

#[test]
fn cells_of_128_and_129() {
    let text = |count: u16| -> String {
        let lines = (0..count).map(|at| format!("{} {at}\n", at.wrapping_mul(40_503)));
        format!("HALT\n.\n{}", lines.collect::<String>())
    };
    assert_eq!(accepted(&text(128)), (1, 128));
    assert_eq!(refused(text(129).as_bytes()), (8, 0));
    assert_eq!(refused(format!("{}0 0", text(127)).as_bytes()), (8, 0));
    assert_eq!(accepted(&format!("{}\n# 1 2\n", text(128))), (1, 128));
    // 2,700 different cells.
    let many: String = (10_000..12_700).map(|at| format!("{at}\t0\n")).collect();
    let many = format!("HALT\n.\n{}", &many[..16_000]);
    assert_eq!(refused(many.as_bytes()), (8, 0));
}

#[test]
fn labels_of_16_and_17_characters() {
    let label = "abcdefghijklmnop";
    assert_eq!(accepted(&format!("{label}: JMP {label}\n.")), (1, 0));
    assert_eq!(refused(format!("{label}q: HALT\n.").as_bytes()), (2, 1));
    assert_eq!(refused(format!("HALT\nJMP {label}q\n.").as_bytes()), (2, 2));
    // All 16 are compared.
    let other = "abcdefghijklmnoq";
    let text = format!("{label}: JMP {other}\n{other}: HALT\n.");
    assert_eq!(accepted(&text), (2, 0));
    assert_eq!(
        refused(format!("{label}: JMP {other}\n.").as_bytes()),
        (6, 0)
    );
    assert_eq!(refused(b"ab: JMP a\n."), (6, 0));
    assert_eq!(refused(b"a: JMP ab\n."), (6, 0));
}

#[test]
fn numbers_of_65535_and_65536_and_five_thousand_leading_zeros() {
    for zeros in [0, 1, 5, 5_000] {
        let zeros = "0".repeat(zeros);
        for statement in ["ADDI #", "LOAD #", "LOAD [#]", "CHECK #", "EXIT #"] {
            let with = |number: &str| {
                let number = format!("{zeros}{number}");
                format!("FENCE\n{}\nHALT\n.\n", statement.replace('#', &number))
            };
            let read = Reading::new().read_with_room(with("65535").as_bytes());
            let set = read.unwrap().set;
            assert_eq!(field(&set[STATEMENT_BYTES..], 4), 65_535);
            for above in ["65536", "65537", "99999", "100000", "655360"] {
                assert_eq!(refused(with(above).as_bytes()), (3, 2));
            }
            for wrapping in ["4294967296", "18446744073709551616"] {
                assert_eq!(refused(with(wrapping).as_bytes()), (3, 2));
            }
        }
        let map = format!("HALT\n.\n{zeros}65535 {zeros}65535\n");
        assert_eq!(accepted(&map), (1, 1));
        for line in [format!("{zeros}65536 1"), format!("1 {zeros}65536")] {
            assert_eq!(refused(format!("HALT\n.\n{line}").as_bytes()), (3, 3));
        }
        // A jump's number is a number first and a target then.
        assert_eq!(accepted(&format!("JMP {zeros}0\n.")), (1, 0));
        assert_eq!(refused(format!("JMP {zeros}1\n.").as_bytes()), (6, 0));
        assert_eq!(refused(format!("JMP {zeros}65536\n.").as_bytes()), (3, 1));
    }
}

#[test]
fn a_text_without_a_dot_is_all_map() {
    assert_eq!(refused(b""), (4, 0));
    assert_eq!(refused(b"1 2\n3 4\n"), (4, 0));
    assert_eq!(refused(b"1 2\n1 2\n"), (4, 0));
    assert_eq!(refused(b"1 2\n\nHALT\n"), (2, 3));
    assert_eq!(refused(b"EXIT 1\n. # end\n"), (2, 1));
    assert_eq!(refused(b"# .\n"), (4, 0));
    assert_eq!(refused(b"1 65536\nHALT\n"), (3, 1));
}

#[test]
fn no_lf_at_the_end() {
    assert_eq!(accepted("HALT\n."), (1, 0));
    assert_eq!(accepted("HALT\n. "), (1, 0));
    assert_eq!(accepted("HALT\n.\n1 2"), (1, 1));
    assert_eq!(accepted("HALT\n.\n1 2#"), (1, 1));
    assert_eq!(accepted("HALT\n.\n\t"), (1, 0));
    assert_eq!(refused(b"HALT\n.\n1"), (2, 3));
    assert_eq!(refused(b"HALT\n.\n1 65536"), (3, 3));
}

#[test]
fn a_label_that_is_an_instruction_word() {
    let words = Instruction::ALL.map(Instruction::word);
    for word in words.iter().chain(&["CMP", "FLUSH"]) {
        assert_eq!(accepted(&format!("{word}: JMP {word}\n.")), (1, 0));
        assert_eq!(accepted(&format!("{word}:HALT\nJNZ {word}\n.")), (3, 0));
        assert_eq!(refused(format!("HALT\n{word}:\n.").as_bytes()), (2, 2));
        assert_eq!(refused(format!("JMP {word}\n.").as_bytes()), (6, 0));
    }
}

#[test]
fn forbidden_bytes_anywhere() {
    // Statements, a comment, a dot line that is not the last, the last one, and the map.
    let text = b"a: LOAD [5] # x\n.\nJMP 0\n.\n1 2 # y\n3 4";
    let mut reading = Reading::new();
    assert!(reading.read_with_room(text).is_ok());
    let allowed = |byte: &u8| matches!(byte, b'\t' | b'\n' | 32..=126);
    for byte in (0..=255).filter(|byte| !allowed(byte)) {
        for at in 0..=text.len() {
            let longer = [&text[..at], &[byte], &text[at..]].concat();
            let refusal = reading.read_with_room(&longer).unwrap_err();
            let line = 1 + text[..at].iter().filter(|&&byte| byte == b'\n').count();
            // Without the last dot, line 3 is a map line.
            let place = if line == 4 { 3 } else { line };
            assert_eq!((refusal.number, refusal.place), (2, place as u32));
        }
    }
}

#[test]
fn set_or_map_output_one_byte_short() {
    let full = format!("{}.\n", "FENCE\n".repeat(31)).repeat(4);
    let cells: String = (0..128).map(|at| format!("{at} 0\n")).collect();
    for (text, set, map) in [
        ("HALT\n.\n".to_string(), 8, 0),
        ("FENCE\n.\n1 2\n".to_string(), 16, 4),
        (format!("{full}{cells}"), 1_024, 512),
    ] {
        let read = |set_room, map_room| {
            let answer = Reading::new().read(text.as_bytes(), set_room, map_room);
            answer.map_or_else(|refusal| (refusal.number, refusal.place), |_| (0, 0))
        };
        assert_eq!(read(set, map), (0, 0));
        assert_eq!(read(set + 1, map + 1), (0, 0));
        assert_eq!(read(set - 1, map), (11, 0));
        assert_eq!(read(0, map), (11, 0));
        if map > 0 {
            assert_eq!(read(set, map - 1), (11, 0));
            assert_eq!(read(set - 1, map - 1), (11, 0));
            assert_eq!(read(set, 0), (11, 0));
        }
    }
    // 11 comes last.
    let mut reading = Reading::new();
    for (text, number) in [("JMP 1\n.\n", 6), ("HALT\n.\n1 1\n1 1\n", 8), ("x", 2)] {
        let refusal = reading.read(text.as_bytes(), 0, 0).unwrap_err();
        assert_eq!(refusal.number, number);
    }
}
