//! Runs the built program over scripts with known output: `program PATH`. Each case is one property.

use std::io::Write;
use std::process::{Command, ExitCode, Stdio};

/// What the program writes for a script on its standard input.
fn output(program: &str, script: &[u8]) -> Vec<u8> {
    let mut child = Command::new(program)
        .stdin(Stdio::piped())
        .stdout(Stdio::piped())
        .spawn()
        .expect("the program starts");
    let mut stdin = child.stdin.take().expect("standard input");
    let bytes = script.to_vec();
    // The program reads no more than it needs: a pipe closed early is no failure.
    let feeder = std::thread::spawn(move || {
        let _ = stdin.write_all(&bytes);
    });
    let out = child.wait_with_output().expect("the program ends").stdout;
    feeder.join().expect("the feeder ends");
    out
}

/// `n` records: the host writes R1 data and the parasite reads it, in turn, with the lines that they give.
fn write_and_read(n: usize) -> (Vec<u8>, String) {
    let (mut script, mut text) = (Vec::new(), String::new());
    for i in 0..n {
        let byte = (i / 2 * 7 % 256) as u8;
        if i % 2 == 0 {
            script.extend([1, 1, byte]);
            text.push_str("0 0 0\n");
        } else {
            script.extend([2, 1, 0]);
            text.push_str(&format!("0 {byte} 0\n"));
        }
    }
    (script, text)
}

/// Records that are all refused with 1, one for each kind and offset given.
fn refused(kinds: std::ops::RangeInclusive<u8>, offsets: std::ops::RangeInclusive<u8>) -> (Vec<u8>, String) {
    let (mut script, mut text) = (Vec::new(), String::new());
    for kind in kinds {
        for offset in offsets.clone() {
            script.extend([kind, offset, 0x81]);
            text.push_str("1 0 0\n");
        }
    }
    (script, text)
}

fn cases() -> Vec<(&'static str, Vec<u8>, String)> {
    let example: [u8; 9] = [0x01, 0x00, 0x81, 0x03, 0x07, 0x2A, 0x00, 0x07, 0x00];
    let lines = "0 0 0\n0 0 1\n0 42 0\n";
    let (full, full_text) = write_and_read(4096);
    let (more, _) = write_and_read(4097);
    let (long, _) = write_and_read(7000);
    let with = |script: &[u8], rest: &[u8]| [script, rest].concat();
    let (kinds, kinds_text) = refused(5..=255, 0..=0);
    let (kinds_data, kinds_data_text) = refused(5..=255, 7..=7);
    let (offsets, offsets_text) = refused(0..=3, 8..=255);
    vec![
        ("the example", example.to_vec(), format!("{lines}end 3 0\n")),
        ("an empty script", vec![], "end 0 0\n".into()),
        ("one byte", vec![0], "end 0 11\n".into()),
        ("two bytes", vec![4, 0], "end 0 11\n".into()),
        ("ends inside a record, one byte", with(&example, &[1]), format!("{lines}end 3 11\n")),
        ("ends inside a record, two bytes", with(&example, &[1, 1]), format!("{lines}end 3 11\n")),
        ("4,096 records", full.clone(), format!("{full_text}end 4096 0\n")),
        ("4,097 records", more.clone(), format!("{full_text}end 4096 10\n")),
        ("4,096 records and one byte", with(&full, &[1]), format!("{full_text}end 4096 10\n")),
        ("12,292 bytes", with(&more, &[0]), format!("{full_text}end 4096 10\n")),
        ("20,000 bytes", long[..20_000].to_vec(), format!("{full_text}end 4096 10\n")),
        ("kinds 5 to 255", kinds, format!("{kinds_text}end 251 0\n")),
        ("kinds 5 to 255 at a data offset", kinds_data, format!("{kinds_data_text}end 251 0\n")),
        ("offsets 8 to 255", offsets, format!("{offsets_text}end 992 0\n")),
        ("resets only", [4, 7, 255].repeat(50), format!("{}end 50 0\n", "0 0 0\n".repeat(50))),
        ("a reset clears a line", vec![1, 0, 0xA0, 4, 0, 0], "0 0 8\n0 0 0\nend 2 0\n".into()),
    ]
}

fn main() -> ExitCode {
    let program = std::env::args().nth(1).expect("the program's path");
    let (mut passed, mut failed) = (0, 0);
    for (name, script, text) in cases() {
        if output(&program, &script) == text.as_bytes() {
            println!("ok {name}");
            passed += 1;
        } else {
            println!("FAILED {name}");
            failed += 1;
        }
    }
    println!("{passed} passed, {failed} failed");
    if failed == 0 { ExitCode::SUCCESS } else { ExitCode::FAILURE }
}
