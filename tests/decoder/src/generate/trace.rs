//! Trace-route messages: sound ones with decoys, and faulty ones.

use super::build::{assemble, size, Piece};
use super::damage::{damage, misname};
use super::decoy::{further_members, other_structures};
use super::embed::lay_out;
use super::layout::bytes_before;
use super::leaf::filler;
use super::lend::{lend, Lent};
use super::random::Random;
use super::sheet::{sound_sheet, unsound_sheet};
use super::values::{out_of_range, values};
use crate::attribute::Values;
use crate::embedded::Embedding;
use crate::header::{Header, HEADER_LENGTH, MESSAGE_MAX};
use crate::layout::Layout;
use crate::sheet::Sheet;
use crate::trace::TRACE_ROUTE_GROUP;

/// A message to be read under a sheet.
#[derive(Clone, Debug, PartialEq, Eq)]
pub struct TraceCase {
    pub lent: Lent,
    pub sheet: Sheet,
    /// What Read is to give of a sound trace; of another one it is only what
    /// this was made from.
    pub values: Values,
    pub embedding: Embedding,
    pub user_data_place: usize,
}

/// Faults of a trace whose structures are sound. The first gives 6, the next
/// two 7, all others 8.
#[derive(Clone, Copy, Debug, Default, PartialEq, Eq)]
pub enum Fault {
    #[default]
    WrongHeader,
    NoTraceRoute,
    TwoTraceRoutes,
    Missing,
    Repeated,
    Mistyped,
    MistypedTwin,
    OutOfRange,
}

pub const FAULTS: [Fault; 8] = [
    Fault::WrongHeader,
    Fault::NoTraceRoute,
    Fault::TwoTraceRoutes,
    Fault::Missing,
    Fault::Repeated,
    Fault::Mistyped,
    Fault::MistypedTwin,
    Fault::OutOfRange,
];

/// A trace in pieces, so that faults can be put in before it is assembled.
struct Draft {
    layout: Layout,
    sheet: Sheet,
    values: Values,
    fields: [u32; 8],
    /// The eight attributes, in any order.
    attributes: Vec<Piece>,
    /// Further direct members of the TraceRoute group.
    further: Vec<Piece>,
    /// The other top-level structures, none of them a TraceRoute group.
    others: Vec<Piece>,
}

/// A sound trace under a random sound sheet.
pub fn sound_trace(random: &mut Random, layout: Layout) -> TraceCase {
    let sheet = sound_sheet(random);
    let values = values(random);
    sound_trace_with(random, layout, sheet, values)
}

/// A sound trace with the given sheet and values, which must be sound.
pub fn sound_trace_with(
    random: &mut Random,
    layout: Layout,
    sheet: Sheet,
    values: Values,
) -> TraceCase {
    let mut draft = Draft::new(random, layout, sheet, values);
    draft.enlarge(random);
    draft.finish(random, 1)
}

/// A trace with sound structures and these faults, under a sound sheet.
pub fn faulty_trace(random: &mut Random, layout: Layout, faults: &[Fault]) -> TraceCase {
    let sheet = sound_sheet(random);
    let mut values = values(random);
    if faults.contains(&Fault::OutOfRange) {
        out_of_range(random, &mut values);
    }
    let mut draft = Draft::new(random, layout, sheet, values);
    for &fault in faults {
        draft.spoil(random, fault);
    }
    let groups = if faults.contains(&Fault::NoTraceRoute) {
        0
    } else {
        1 + usize::from(faults.contains(&Fault::TwoTraceRoutes))
    };
    draft.finish(random, groups)
}

/// A trace with damaged bytes, with another length or layout than its own, or
/// with an unsound sheet; now and then it had a fault before, so that the
/// refusals' order is tried.
pub fn damaged_trace(random: &mut Random, layout: Layout) -> TraceCase {
    let mut case = if random.chance(25) {
        some_faults(random, layout)
    } else {
        sound_trace(random, layout)
    };
    if random.chance(10) {
        case.sheet = unsound_sheet(random);
    } else if !misname(random, &mut case.lent) {
        case.lent.buffer.truncate(case.lent.length);
        damage(random, layout, &mut case.lent.buffer);
        case.lent = lend(random, layout, case.lent.buffer);
    }
    if random.chance(3) {
        case.sheet = unsound_sheet(random);
    }
    case
}

/// One fault or two.
fn some_faults(random: &mut Random, layout: Layout) -> TraceCase {
    let faults = [random.pick(&FAULTS), random.pick(&FAULTS)];
    let number = random.pick(&[1, 1, 2]);
    faulty_trace(random, layout, &faults[..number])
}

/// A mix: mostly sound, then damaged, then faulty.
pub fn any_trace(random: &mut Random, layout: Layout) -> TraceCase {
    match random.below(11) {
        0..=5 => sound_trace(random, layout),
        6 | 7 => some_faults(random, layout),
        _ => damaged_trace(random, layout),
    }
}

impl Draft {
    fn new(random: &mut Random, layout: Layout, sheet: Sheet, values: Values) -> Draft {
        let pairs = sheet.identifiers.into_iter().zip(values.to_array());
        let mut attributes: Vec<Piece> = pairs
            .map(|(identifier, value)| Piece::integer(identifier, value))
            .collect();
        if random.chance(70) {
            random.shuffle(&mut attributes);
        }
        let mut fields = [0; 8];
        fields.copy_from_slice(&Header::TRACE_ROUTE.fields()[..8]);
        Draft {
            layout,
            sheet,
            values,
            fields,
            attributes,
            further: further_members(random, &sheet),
            others: other_structures(random, &sheet),
        }
    }

    /// Now and then a trace so long that a group hardly fits behind it.
    fn enlarge(&mut self, random: &mut Random) {
        if !random.chance(3) {
            return;
        }
        let own = bytes_before(self.layout) + HEADER_LENGTH + 16 + 128;
        let used = own + size(&self.further) + size(&self.others);
        let spare = random.pick(&[0, 0, 16, 20, 100, 200]);
        let long = MESSAGE_MAX.saturating_sub(used + spare);
        if long >= 20 {
            self.others.push(filler(random, 3001, long));
        }
    }

    fn spoil(&mut self, random: &mut Random, fault: Fault) {
        let index = random.below(self.attributes.len());
        let Some(identifier) = self.attributes.get(index).map(Piece::parameter) else {
            return;
        };
        match fault {
            Fault::WrongHeader => spoil_fields(random, &mut self.fields),
            Fault::Missing => {
                // Also a second one that another fault has put in.
                self.attributes.remove(index);
                self.further.retain(|piece| piece.parameter() != identifier);
            }
            Fault::Repeated => self.further.push(self.attributes[index].clone()),
            Fault::Mistyped => self.attributes[index] = mistyped(random, identifier),
            Fault::MistypedTwin => self.further.push(mistyped(random, identifier)),
            Fault::NoTraceRoute | Fault::TwoTraceRoutes | Fault::OutOfRange => {}
        }
    }

    /// Puts the pieces together, with so many TraceRoute groups.
    fn finish(mut self, random: &mut Random, groups: usize) -> TraceCase {
        let mut members = self.attributes;
        for piece in self.further {
            members.insert(random.below(members.len() + 1), piece);
        }
        let trace_route = Piece::group(TRACE_ROUTE_GROUP, &members);
        for _ in 0..groups {
            let place = random.below(self.others.len() + 1);
            self.others.insert(place, trace_route.clone());
        }
        let part = assemble(self.fields, &self.others);
        let laid = lay_out(random, self.layout, part);
        TraceCase {
            lent: lend(random, self.layout, laid.bytes),
            sheet: self.sheet,
            values: self.values,
            embedding: laid.embedding,
            user_data_place: laid.user_data_place,
        }
    }
}

/// One header field that makes it no trace-route header, though a sound one.
fn spoil_fields(random: &mut Random, fields: &mut [u32; 8]) {
    match random.below(7) {
        0 => fields[0] = random.pick(&[7, 12, 9, 11, 1 << 31]),
        1 => fields[2] = random.pick(&[1, 2]),
        2 => fields[3] = random.pick(&[69, 74, 76, 0]),
        3 => fields[4] = random.pick(&[0, 2, u32::MAX]),
        4 => fields[5] = random.pick(&[0, 2, u32::MAX]),
        5 => fields[6] = random.pick(&[1, 2, u32::MAX]),
        _ => fields[7] = random.pick(&[1, 2033, u32::MAX]),
    }
}

/// A structure with an attribute's identifier that is no integer.
fn mistyped(random: &mut Random, identifier: u32) -> Piece {
    match random.below(6) {
        0 => Piece::new(23, identifier, &[0, 0, 1], &[], &[]),
        1 => Piece::string(identifier, b"five"),
        2 => Piece::new(5, identifier, &[1, 1], &[], &[]),
        3 => Piece::new(13, identifier, &[1, 2], &[], &[]),
        4 => Piece::group(identifier, &[Piece::integer(identifier, 2)]),
        _ => Piece::group(identifier, &[]),
    }
}
