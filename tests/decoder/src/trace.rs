//! Read: a sound trace-route message under a sheet (refusals 17, 1, 18,
//! 2 to 8).

use crate::attribute::{Values, ATTRIBUTES};
use crate::embedded::Embedding;
use crate::layout::{Form, Layout};
use crate::refusal::Refusal;
use crate::sheet::Sheet;
use crate::structure::{Row, INTEGER};
use crate::walk::walk_part;
use crate::word::word;

/// Parameter of the TraceRoute group.
pub const TRACE_ROUTE_GROUP: u32 = 8003;
/// Parameter of an Activity group.
pub const ACTIVITY_GROUP: u32 = 8005;

/// Where an integer structure's Value stands in it.
pub(crate) const VALUE_OFFSET: usize = 12;

/// What Read gives.
#[derive(Clone, Copy, Debug, PartialEq, Eq)]
pub struct Contents {
    pub values: Values,
    /// The embedded header's fields; of a plain trace all are zero.
    pub embedding: Embedding,
    /// Where the user data begin. Without any, and so in every plain trace, it
    /// is the message's length.
    pub user_data_place: usize,
}

/// What Read gives, and where the values stand.
#[derive(Clone, Copy, Debug, PartialEq, Eq)]
pub struct Trace {
    pub contents: Contents,
    /// Starts of the eight attributes' integer structures, in the rules'
    /// order; each Value stands 12 bytes behind its start.
    pub places: [usize; ATTRIBUTES],
}

impl Trace {
    /// Where the attribute's Value stands in the message.
    pub fn value_place(&self, attribute: usize) -> Option<usize> {
        let place = self.places.get(attribute)?;
        place.checked_add(VALUE_OFFSET)
    }
}

/// The eight values of a trace-route message, its embedded header's fields,
/// and its user data's place.
pub fn read(
    buffer: &[u8],
    length: usize,
    layout: Layout,
    sheet: &Sheet,
) -> Result<Contents, Refusal> {
    locate(buffer, length, layout, sheet).map(|trace| trace.contents)
}

/// The same, and the places of the attributes that hold the values.
pub fn locate(
    buffer: &[u8],
    length: usize,
    layout: Layout,
    sheet: &Sheet,
) -> Result<Trace, Refusal> {
    sheet.require_sound()?;
    let part = layout.pcf_part(buffer, length)?;
    let mut search = Search::new(sheet);
    // 6, 7 and 8 come after any fault of a structure, so they wait for the end.
    walk_part(part, |row| search.visit(part.bytes, row))?;
    if !part.sound_header()?.is_trace_route() {
        return Err(Refusal::whole(6));
    }
    if search.trace_route_groups != 1 {
        return Err(Refusal::whole(7));
    }
    let (values, places) = search.attributes().ok_or(Refusal::whole(8))?;
    let embedding = match layout.form {
        Form::Plain => None,
        Form::Embedded => Embedding::of(part.bytes),
    };
    let contents = Contents {
        values,
        embedding: embedding.unwrap_or(Embedding::NONE),
        user_data_place: part.end(),
    };
    Ok(Trace { contents, places })
}

/// What the walk has met of the TraceRoute group.
struct Search<'a> {
    sheet: &'a Sheet,
    trace_route_groups: usize,
    /// Whether the top-level structure met last is a TraceRoute group.
    inside: bool,
    /// Place and value of each attribute met.
    found: [Option<(usize, u32)>; ATTRIBUTES],
    /// An attribute was mistyped or repeated.
    fault: bool,
}

impl<'a> Search<'a> {
    fn new(sheet: &'a Sheet) -> Search<'a> {
        Search {
            sheet,
            trace_route_groups: 0,
            inside: false,
            found: [None; ATTRIBUTES],
            fault: false,
        }
    }

    /// Only top-level groups and direct members count: the same numbers deeper
    /// inside, or in Activity groups, mean nothing here.
    fn visit(&mut self, message: &[u8], row: &Row) {
        if row.depth == 1 {
            self.inside = row.is_group() && row.parameter == TRACE_ROUTE_GROUP;
            self.trace_route_groups += usize::from(self.inside);
        } else if row.depth == 2 && self.inside {
            self.member(message, row);
        }
    }

    fn member(&mut self, message: &[u8], row: &Row) {
        let Some(attribute) = self.sheet.attribute(row.parameter) else {
            return;
        };
        let value = word(message, row.place.saturating_add(VALUE_OFFSET));
        match (row.kind, value, self.found[attribute]) {
            (INTEGER, Some(value), None) => self.found[attribute] = Some((row.place, value)),
            _ => self.fault = true,
        }
    }

    /// Values and places, if each attribute was met once, as an integer in its
    /// range.
    fn attributes(&self) -> Option<(Values, [usize; ATTRIBUTES])> {
        let mut values = [0; ATTRIBUTES];
        let mut places = [0; ATTRIBUTES];
        for (attribute, found) in self.found.iter().enumerate() {
            (places[attribute], values[attribute]) = (*found)?;
        }
        let values = Values::from_array(values);
        let sound = !self.fault && values.in_range();
        sound.then_some((values, places))
    }
}
