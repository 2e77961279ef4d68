//! A second, slower reading of the structure rules, written the other way
//! round (recursion, a table of rows, 128-bit numbers), against which the
//! decoder's walk is held.

use crate::helpers::*;
use decoder::generate::{any_layout, any_message, damaged_trace, Random};
use decoder::*;

/// One row of the rules' table: the offsets of the counts, whose product
/// times the scale is the data's size.
struct Shape {
    kind: u128,
    fixed: u128,
    exact: bool,
    counts: &'static [usize],
    scale: u128,
}

const fn shape(
    kind: u128,
    fixed: u128,
    exact: bool,
    counts: &'static [usize],
    scale: u128,
) -> Shape {
    Shape {
        kind,
        fixed,
        exact,
        counts,
        scale,
    }
}

const TABLE: [Shape; 11] = [
    shape(3, 16, true, &[], 0),
    shape(4, 20, false, &[16], 1),
    shape(5, 16, true, &[12], 4),
    shape(6, 24, false, &[16, 20], 1),
    shape(9, 16, false, &[12], 1),
    shape(13, 20, true, &[], 0),
    shape(14, 24, false, &[20], 1),
    shape(15, 20, false, &[16], 1),
    shape(20, 16, true, &[12], 0),
    shape(23, 24, true, &[], 0),
    shape(25, 16, true, &[12], 8),
];

struct Plain<'a> {
    bytes: &'a [u8],
    rows: Vec<Row>,
}

impl Plain<'_> {
    fn number(&self, place: usize) -> u128 {
        u128::from(get(self.bytes, place))
    }

    /// StrucLength if the structure has no fault.
    fn sound(&self, place: usize) -> Option<u128> {
        let left = (self.bytes.len() - place) as u128;
        if left < 12 {
            return None;
        }
        let length = self.number(place + 4);
        let shape = TABLE
            .iter()
            .find(|shape| shape.kind == self.number(place))?;
        if left < shape.fixed {
            return None;
        }
        let counts: Vec<u128> = shape
            .counts
            .iter()
            .map(|at| self.number(place + at))
            .collect();
        let size = shape.fixed + shape.scale * counts.iter().product::<u128>();
        let rule = if shape.exact {
            length == size
        } else {
            length >= size
        };
        let bounded = counts.iter().all(|&count| count < 1 << 31);
        (rule && bounded && length.is_multiple_of(4) && length <= left).then_some(length)
    }

    /// So many structures from a place on; gives the place behind them.
    fn members(&mut self, mut place: usize, count: u128, depth: u32) -> Result<usize, Refusal> {
        for _ in 0..count {
            let length = self.sound(place).ok_or(refusal(3, place))?;
            let group = self.number(place) == 20;
            if group && depth > 8 {
                return Err(refusal(4, place));
            }
            self.rows.push(Row {
                depth,
                place,
                kind: get(self.bytes, place),
                parameter: get(self.bytes, place + 8),
                struc_length: length as u32,
                count: group.then(|| get(self.bytes, place + 12)),
            });
            let inside = place + length as usize;
            place = if group {
                let count = self.number(place + 12);
                self.members(inside, count, depth + 1)?
            } else {
                inside
            };
        }
        Ok(place)
    }
}

/// Where the PCF header stands.
fn start(layout: Layout) -> usize {
    match layout.form {
        Form::Plain => 0,
        Form::Embedded => 32,
    }
}

/// Where the PCF part ends. An embedded header's faults are looked for in its
/// three numbers.
pub fn plain_end(buffer: &[u8], length: usize, layout: Layout) -> Result<usize, Refusal> {
    let least = start(layout) + 36;
    if length > buffer.len() || length > 65_536 || length < least {
        return Err(refusal(1, 0));
    }
    if layout.form == Form::Plain {
        return Ok(length);
    }
    let [identifier, version, end] = [0, 4, 8].map(|place| get(buffer, place));
    let fault = identifier != 0x4550_4820
        || version != 1
        || end < 68
        || end as usize > length
        || end & 3 != 0;
    if fault {
        return Err(refusal(18, 0));
    }
    Ok(end as usize)
}

fn plain_rows(buffer: &[u8], length: usize, layout: Layout) -> Result<Vec<Row>, Refusal> {
    let bytes = &buffer[..plain_end(buffer, length, layout)?];
    let [size, version, count] = [4, 8, 32].map(|place| get(bytes, start(layout) + place));
    if size != 36 || !(1..=3).contains(&version) || count >= 1 << 31 {
        return Err(refusal(2, 0));
    }
    let mut plain = Plain {
        bytes,
        rows: Vec::new(),
    };
    let end = plain.members(start(layout) + 36, u128::from(count), 1)?;
    if end < bytes.len() {
        return Err(refusal(5, end));
    }
    Ok(plain.rows)
}

/// All entries over the structures say the same as the second reading.
fn hold(buffer: &[u8], length: usize, layout: Layout) {
    let expected = plain_rows(buffer, length, layout);
    assert_eq!(rows(buffer, length, layout), expected);
    assert_eq!(
        check(buffer, length, layout),
        expected.as_ref().map(Vec::len).map_err(|r| *r)
    );
    let tally = tally(buffer, length, layout);
    assert_eq!(tally.refusal, expected.as_ref().err().copied());
    let mut counts = [0; KINDS];
    for row in expected.iter().flatten() {
        counts[row.kind as usize] += 1;
        assert_eq!(
            step(buffer, length, layout, row.place, row.depth),
            Ok((*row, row.behind()))
        );
    }
    assert_eq!(tally.counts, counts);
    let header = buffer.get(start(layout)..).unwrap_or_default();
    assert_eq!(
        listing(buffer, length, layout),
        text(header, length, &expected)
    );
}

fn text(header: &[u8], length: usize, expected: &Result<Vec<Row>, Refusal>) -> String {
    let rows = match expected {
        Ok(rows) => rows,
        Err(refusal) => return format!("refused {} {}\n", refusal.number, refusal.place),
    };
    let [kind, command, count] = [0, 12, 32].map(|place| get(header, place));
    let mut text = format!("pcf {kind} {command} {count} {length}\n");
    for row in rows {
        text += &format!(
            "{} {} {} {} {}\n",
            row.depth, row.place, row.kind, row.parameter, row.struc_length
        );
    }
    text + &format!("end {}\n", rows.len())
}

#[test]
fn generated_messages() {
    let mut random = Random::new(41);
    for _ in 0..6_000 {
        let layout = any_layout(&mut random);
        let lent = any_message(&mut random, layout);
        hold(&lent.buffer, lent.length, lent.layout);
    }
}

#[test]
fn damaged_traces() {
    let mut random = Random::new(42);
    for _ in 0..4_000 {
        let layout = any_layout(&mut random);
        let lent = damaged_trace(&mut random, layout).lent;
        hold(&lent.buffer, lent.length, lent.layout);
    }
}

/// Types, lengths around the event's in both forms, and the ends of the ranges.
const EDGES: [u32; 28] = [
    0,
    1,
    2,
    3,
    5,
    9,
    13,
    14,
    15,
    16,
    20,
    23,
    24,
    25,
    68,
    328,
    332,
    336,
    340,
    341,
    344,
    1 << 29,
    1 << 30,
    i32::MAX as u32,
    1 << 31,
    (1 << 31) + 4,
    u32::MAX - 3,
    u32::MAX,
];

#[test]
fn every_word_of_the_event_at_every_edge() {
    let event = sample::event_004();
    let wrapped = embedded(&event, b"user data");
    for (bytes, layout) in [(&event, PLAIN), (&wrapped, EMBEDDED)] {
        for place in (0..start(layout) + 300).step_by(4) {
            for value in EDGES {
                let mut damaged = bytes.clone();
                put(&mut damaged, place, value);
                hold(&damaged, bytes.len(), layout);
            }
        }
    }
}
