//! The small program: "reads plane codes from standard input, a line each,
//! ended by a line feed or the input's end".

use crate::plane;

/// What the program prints for this input.
pub fn answers(input: &[u8]) -> Vec<u8> {
    let mut output = Vec::new();
    let mut rest = input;
    // "A line feed at the very end starts no further line, and empty input
    // prints nothing."
    while !rest.is_empty() {
        let end = rest.iter().position(|&byte| byte == b'\n');
        let line = &rest[..end.unwrap_or(rest.len())];
        rest = &rest[end.map_or(rest.len(), |place| place + 1)..];
        output.extend_from_slice(answer(line).as_bytes());
        output.push(b'\n');
    }
    output
}

/// "It prints level, west, south, width, height, or "refused", number, place."
fn answer(line: &[u8]) -> String {
    match plane::read(line) {
        Ok(cell) => format!("{} {} {} {} {}", cell.level, cell.west, cell.south, cell.width, cell.height),
        Err(refusal) => format!("refused {} {}", refusal.number, refusal.place),
    }
}
