//! Explains a trace from standard input: rustc judge.rs -L FOLDER_OF_THE_LIBRARY -l static=zorthewin

use std::io::{Read, Write};
use std::process::ExitCode;

extern "C" {
    fn zw_explain(trace: *const u8, len: usize, form: u8, out: *mut u8, room: usize, length: *mut usize) -> u32;
}

/// The status and the text of an explanation.
fn explained(trace: &[u8]) -> (u32, Vec<u8>) {
    let mut text = vec![0; 4096];
    loop {
        let mut length = 0;
        // Each pointer is valid for as many bytes as are said, and they share none.
        let status = unsafe {
            zw_explain(trace.as_ptr(), trace.len(), 0, text.as_mut_ptr(), text.len(), &mut length)
        };
        let is_whole = length <= text.len();
        text.resize(length, 0);
        if is_whole {
            return (status, text);
        }
    }
}

fn main() -> std::io::Result<ExitCode> {
    let mut trace = Vec::new();
    std::io::stdin().read_to_end(&mut trace)?;
    let (status, text) = explained(&trace);
    std::io::stdout().write_all(&text)?;
    Ok(ExitCode::from(status as u8))
}
