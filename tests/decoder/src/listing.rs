//! The listing program's text.

use crate::layout::Layout;
use crate::refusal::Refusal;
use crate::structure::Row;
use crate::walk::walk_part;

/// The listing of a sound message, every line with its newline. The length in
/// its first line is the whole message's, user data included.
pub fn list(buffer: &[u8], length: usize, layout: Layout) -> Result<String, Refusal> {
    let part = layout.pcf_part(buffer, length)?;
    let header = part.sound_header()?;
    // A line is about as long as the shortest structure.
    let mut text = Vec::with_capacity(64 + part.end());
    text.extend_from_slice(b"pcf ");
    push_line(
        &mut text,
        [
            header.kind,
            header.command,
            header.parameter_count,
            length as u32,
        ],
    );
    let mut structures = 0;
    walk_part(part, |row| {
        push_row(&mut text, row);
        structures += 1;
    })?;
    text.extend_from_slice(b"end ");
    push_line(&mut text, [structures]);
    // Digits, letters, blanks and newlines only: this cannot fail.
    Ok(String::from_utf8(text).unwrap_or_default())
}

/// The listing, or the one line that a refusal prints instead.
pub fn listing(buffer: &[u8], length: usize, layout: Layout) -> String {
    list(buffer, length, layout).unwrap_or_else(|refusal| refusal.line())
}

/// What the program prints for its whole input.
pub fn listing_of_input(input: &[u8], layout: Layout) -> String {
    listing(input, input.len(), layout)
}

/// A place in a message is below 65,536, so 32 bits hold it.
fn push_row(text: &mut Vec<u8>, row: &Row) {
    push_line(
        text,
        [
            row.depth,
            row.place as u32,
            row.kind,
            row.parameter,
            row.struc_length,
        ],
    );
}

/// The numbers with blanks between, and then the line's end.
fn push_line<const N: usize>(text: &mut Vec<u8>, numbers: [u32; N]) {
    for (index, number) in numbers.into_iter().enumerate() {
        if index > 0 {
            text.push(b' ');
        }
        push_number(text, number);
    }
    text.push(b'\n');
}

/// Decimal digits without the formatting machinery, which would take most of
/// the listing's time.
fn push_number(text: &mut Vec<u8>, mut number: u32) {
    // The largest number has 10 digits.
    let mut digits = [b'0'; 10];
    let mut first = digits.len();
    for (index, digit) in digits.iter_mut().enumerate().rev() {
        *digit = b'0' + (number % 10) as u8;
        first = index;
        number /= 10;
        if number == 0 {
            break;
        }
    }
    text.extend_from_slice(&digits[first..]);
}
