//! Writes out the files of tables.
//!
//! A file is a text with lines like these:
//!
//! ```text
//! fanout table: 00000000*27 00000001*229
//! text: a line|
//! ```
//!
//! After the name of a part come its bytes in hex digits, and how often they are repeated. After
//! `text` comes a text, in which a bar is a line feed.

use std::alloc::{AllocError, Global};

/// A file with its path.
#[derive(Drop)]
pub(crate) struct Written {
    pub(crate) path: Vec<u8>,
    pub(crate) bytes: Vec<u8>,
}

/// Adds a text: each bar as a line feed, and each other character as the byte of its number.
fn add_text(bytes: &mut Vec<u8>, text: &str) -> Result<(), AllocError> {
    for one in text.chars() {
        let byte = (one as u32 % 256) as u8;
        bytes.push(if byte == b'|' { b'\n' } else { byte })?;
    }
    Ok(())
}

/// Writes out a text, in the same way.
pub(crate) fn written_out(alloc: Global, text: &str) -> Result<Vec<u8>, AllocError> {
    let mut bytes = Vec::new(alloc);
    add_text(&mut bytes, text)?;
    Ok(bytes)
}

/// Adds the bytes of hex digits.
fn add_digits(bytes: &mut Vec<u8>, digits: &str) -> Result<(), AllocError> {
    let mut high = None;
    for digit in digits.chars() {
        let value = digit.to_digit(16).unwrap_or(0);
        match high {
            None => high = Some(value),
            Some(first) => {
                bytes.push((first % 16 * 16 + value % 16) as u8)?;
                high = None;
            }
        }
    }
    Ok(())
}

/// Adds the bytes of parts.
fn add_parts(bytes: &mut Vec<u8>, parts: &str) -> Result<(), AllocError> {
    for part in parts.split(' ') {
        let (digits, times) = part.split_once('*').unwrap_or((part, "1"));
        for _ in 0..times.parse::<usize>().unwrap_or(0) {
            add_digits(bytes, digits)?;
        }
    }
    Ok(())
}

/// Adds the bytes of a line.
fn add_line(bytes: &mut Vec<u8>, line: &str) -> Result<(), AllocError> {
    let (name, parts) = line.split_once(": ").unwrap_or((line, ""));
    if name == "text" {
        add_text(bytes, parts)
    } else {
        add_parts(bytes, parts)
    }
}

/// Returns the bytes of a file.
fn bytes_of(alloc: Global, lines: &str) -> Result<Vec<u8>, AllocError> {
    let mut bytes = Vec::new(alloc);
    for line in lines.lines() {
        add_line(&mut bytes, line)?;
    }
    Ok(bytes)
}

/// Writes out a file.
fn file_of(alloc: Global, path: &str, lines: &str) -> Result<Written, AllocError> {
    let path = path.as_bytes().to_vec(alloc)?;
    let bytes = bytes_of(alloc, lines)?;
    Ok(Written { path, bytes })
}

/// Writes out files.
pub(crate) fn files_of(
    alloc: Global,
    table: &[(&'static str, &'static str)],
) -> Result<Vec<Written>, AllocError> {
    let mut files = Vec::new(alloc);
    for (path, lines) in table {
        files.push(file_of(alloc, path, lines)?)?;
    }
    Ok(files)
}
