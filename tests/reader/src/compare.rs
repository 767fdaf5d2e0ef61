//! Compares given answers with the reader's own, request by request.

use crate::answers::answer;
use crate::protocol::{read_request, Request};
use std::io::{self, BufRead, Write};

/// Prints the first difference, or that there is none; says whether all agreed.
pub fn compare(
    requests: &mut impl BufRead,
    answers: &mut impl BufRead,
    output: &mut impl Write,
) -> io::Result<bool> {
    let mut number = 0;
    while let Some((request, bytes)) = read_request(requests)? {
        number += 1;
        let own = answer(&request, &bytes) + "\n";
        let given = next_line(answers)?;
        if given != own.as_bytes() {
            show_difference(number, &request, &bytes, &own, &given, output)?;
            return Ok(false);
        }
    }
    if !next_line(answers)?.is_empty() {
        writeln!(output, "more answers than the {number} requests")?;
        return Ok(false);
    }
    writeln!(output, "no difference in {number} requests")?;
    Ok(true)
}

/// One line with its line feed; empty at the end.
fn next_line(answers: &mut impl BufRead) -> io::Result<Vec<u8>> {
    let mut line = Vec::new();
    answers.read_until(b'\n', &mut line)?;
    Ok(line)
}

fn show_difference(
    number: usize,
    request: &Request,
    bytes: &[u8],
    own: &str,
    given: &[u8],
    output: &mut impl Write,
) -> io::Result<()> {
    writeln!(output, "difference in request {number}: {}", request.header(bytes.len()))?;
    writeln!(output, "reader:  {}", own.escape_debug())?;
    let given =
        if given.is_empty() { "(nothing)".into() } else { given.escape_ascii().to_string() };
    writeln!(output, "program: {given}")?;
    dump(bytes, output)?;
    request.name().map_or(Ok(()), |name| dump(name, output))
}

/// Sixteen bytes a line: the place of the first, the bytes in hexadecimal,
/// and those that can be printed.
fn dump(bytes: &[u8], output: &mut impl Write) -> io::Result<()> {
    for (index, chunk) in bytes.chunks(16).enumerate() {
        let hex: String = chunk.iter().map(|byte| format!("{byte:02x} ")).collect();
        let shown = |&byte: &u8| if (0x20..0x7F).contains(&byte) { byte as char } else { '.' };
        let text: String = chunk.iter().map(shown).collect();
        writeln!(output, "{:08}  {hex:48} {text}", index * 16)?;
    }
    Ok(())
}
