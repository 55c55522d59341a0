//! The commands of `miden` in plain Rust.
use reference::commands::{Status, answer};
use std::io::Write;
use std::os::unix::ffi::OsStringExt;
use std::process::ExitCode;

fn main() -> ExitCode {
    let words: Vec<Vec<u8>> = std::env::args_os().skip(1).map(OsStringExt::into_vec).collect();
    let words: Vec<&[u8]> = words.iter().map(Vec::as_slice).collect();
    let answer = answer(&words);
    let mut out = std::io::stdout();
    let printed = out.write_all(answer.lines.as_bytes()).and_then(|()| out.flush());
    let status = if printed.is_ok() { answer.status } else { Status::PrintFault };
    ExitCode::from(status as u8)
}
