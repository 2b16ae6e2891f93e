//! Frames: texts one after another, each led by its byte count in decimal and an LF.

use std::io::{self, BufRead, Error, ErrorKind, Write};

/// Reads the next frame, or nothing at the end of the input.
pub fn read_frame(input: &mut impl BufRead) -> io::Result<Option<Vec<u8>>> {
    let mut count = String::new();
    if input.read_line(&mut count)? == 0 {
        return Ok(None);
    }
    let length = count
        .strip_suffix('\n')
        .and_then(|digits| digits.parse().ok())
        .ok_or_else(|| Error::new(ErrorKind::InvalidData, "a frame has no byte count"))?;
    let mut frame = vec![0; length];
    input.read_exact(&mut frame)?;
    Ok(Some(frame))
}

pub fn write_frame(output: &mut impl Write, bytes: &[u8]) -> io::Result<()> {
    writeln!(output, "{}", bytes.len())?;
    output.write_all(bytes)
}
