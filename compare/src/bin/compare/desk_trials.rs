//! The desk program's output, byte for byte.

use std::io::Write;
use std::process::{Command, ExitCode, Stdio};
use std::thread;
use std::time::Duration;

use second_reading::desk;
use second_reading::sheet::sheet;

use crate::sheet_files::{any_sheet, edges, worsen};
use second_reading::random::Random;

/// Runs the program on every sheet. The first difference ends it.
pub fn run(program: &str, seed: u64) -> ExitCode {
    let files = sheets(&mut Random::new(seed));
    let (mut accepted, mut refused) = (0, 0);
    for (turn, file) in files.iter().enumerate() {
        let due = desk::output(file);
        let found = match output(program, file, turn % 20 == 0) {
            Ok(found) => found,
            Err(error) => {
                eprintln!("{program}: {error}");
                return ExitCode::from(2);
            }
        };
        if found != due.as_bytes() {
            println!("DIFFERENT: the desk program on a sheet of {} bytes", file.len());
            println!("sheet: {}", hexadecimal(file));
            println!("due:\n{due}\nfound:\n{}", String::from_utf8_lossy(&found));
            return ExitCode::from(1);
        }
        if due.starts_with("refused") {
            refused += 1;
        } else {
            accepted += 1;
        }
    }
    println!("desk: {} sheets, {accepted} accepted, {refused} refused, no difference", files.len());
    ExitCode::SUCCESS
}

fn sheets(random: &mut Random) -> Vec<Vec<u8>> {
    let example = sheet(1, 4, &[1, 4, 16, 16], &[1]);
    let mut files: Vec<Vec<u8>> =
        (0..=example.len()).map(|length| example[..length].to_vec()).collect();
    files.push(sheet(1, 2, &[1, 16], &[]));
    files.push(sheet(1, 2, &[1, 16], &[0, 0]));
    files.push(sheet(1, 2, &[1, 1], &[]));
    files.push(sheet(1, 2, &[1, 0], &[0, 0, 1]));
    files.push(sheet(3, 3, &[2, 4, 8, 1, 4, 16, 1, 4, 16], &[7, 4]));
    // Ponds: alone, amidst eight inflows, beside one that is no outlet; and a byte beside theirs.
    files.push(sheet(1, 1, &[255], &[0]));
    files.push(sheet(3, 3, &[2, 4, 8, 1, 255, 16, 128, 64, 32], &[4]));
    files.push(sheet(1, 5, &[1, 255, 16, 255, 16], &[3]));
    files.push(sheet(1, 5, &[1, 254, 16, 255, 16], &[3]));
    files.extend(edges());
    for turn in 0..400 {
        let mut file = any_sheet(if turn % 3 == 0 { 64 } else { 10 }, random);
        if turn % 6 == 0 {
            worsen(&mut file, random);
        }
        files.push(file);
    }
    files
}

/// What the program prints for a file, which comes to it whole or halting. It
/// may stop reading before the end.
fn output(program: &str, file: &[u8], halting: bool) -> std::io::Result<Vec<u8>> {
    let mut desk = Command::new(program).stdin(Stdio::piped()).stdout(Stdio::piped()).spawn()?;
    let mut input = desk.stdin.take().expect("a pipe");
    let write = move || {
        let (first, second) = file.split_at(if halting { file.len() / 2 } else { 0 });
        input.write_all(first)?;
        if halting {
            thread::sleep(Duration::from_millis(20));
        }
        input.write_all(second)
    };
    thread::scope(|scope| {
        scope.spawn(write);
        desk.wait_with_output().map(|output| output.stdout)
    })
}

fn hexadecimal(file: &[u8]) -> String {
    let bytes: Vec<String> = file.iter().take(8000).map(|byte| format!("{byte:02X}")).collect();
    bytes.join(" ")
}
