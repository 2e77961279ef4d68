//! What the choices of an input mean: the arguments of all functions.
//!
//! Small numbers choose edges and all others the ordinary argument, so that
//! most inputs get as far as their message does.

use crate::layout::{Choice, Input};
use crate::message::{composed, length, message, place, room, user_data};
use crate::structure::swell;
use crate::tables::{SPECIAL, VALUES};
use decoder::generate::{Piece, NAMES};
use decoder::sample::{IBM, MADE_UP};
use decoder::{Activity, Embedding, Event, Layout, Level, Settings, Sheet, Values};
use differential::compare::compose::Draft;
use differential::compare::given::Given;
use differential::compare::numbers::Spare;
use differential::guard::Edge;

/// All arguments.
#[derive(Clone, Debug)]
pub struct Case {
    pub layout: Layout,
    pub buffer: Vec<u8>,
    pub length: usize,
    pub sheet: Sheet,
    values: Values,
    embedding: Embedding,
    pub user_data: Vec<u8>,
    pub composed: usize,
    pub place: usize,
    pub depth: u32,
    pub n: usize,
    pub identifier: u32,
    pub group: Vec<u8>,
    pub report: usize,
    pub spare: Spare,
    pub edge: Edge,
    event: u8,
}

impl Case {
    pub fn new(input: &Input) -> Case {
        let group = group(input);
        let message = message(input, group.len());
        let size = message.len() + room(input, group.len());
        let length = length(input, &message, size);
        let user_data = user_data(input);
        Case {
            layout: input.layout(),
            place: place(input, &message, length),
            // What stands behind the message looks like one too.
            buffer: message.iter().copied().cycle().take(size).collect(),
            length,
            sheet: sheet(input),
            values: values(input),
            embedding: Embedding::of(&input.message).unwrap_or(Embedding::NONE),
            composed: composed(input, user_data.len()),
            user_data,
            depth: depth(input),
            n: number(input),
            identifier: identifier(input),
            report: report(input, group.len()),
            spare: spare(input),
            edge: [Edge::High, Edge::Low][usize::from(input.choice(Choice::Edge) % 2)],
            event: input.choice(Choice::Event),
            group,
        }
    }

    /// The message, lying where the caller has it.
    pub fn given<'a>(&self, buffer: &'a [u8]) -> Given<'a> {
        Given {
            buffer,
            length: self.length,
            layout: self.layout,
            spare: self.spare,
        }
    }

    /// What compose is given; the user data lie where the caller has them.
    pub fn draft<'a>(&self, user_data: &'a [u8]) -> Draft<'a> {
        Draft {
            layout: self.layout,
            sheet: self.sheet,
            values: self.values,
            embedding: self.embedding,
            user_data,
            spare: self.spare,
        }
    }

    /// Three events, one after another; the group lies where the caller has it.
    pub fn events<'a>(&self, group: &'a [u8]) -> [Event<'a>; 3] {
        let bit = |place: u8| self.event >> place & 1 == 1;
        let settings = Settings {
            // Turned round, so that 0 is what does most.
            activity_recording: !bit(3),
            trace_route_messaging: !bit(4),
            layout: self.layout,
        };
        let activity = Event::Activity(Activity {
            level: [Level::Low, Level::Medium, Level::High, Level::Low]
                [usize::from(self.event % 4)],
            group,
            reports_asked: !bit(2),
            settings,
        });
        let discontinuity = Event::Discontinuity(settings);
        if bit(5) {
            [discontinuity, activity, activity]
        } else {
            [activity, discontinuity, activity]
        }
    }
}

/// What stands for the low level, and option bits that mean nothing.
fn spare(input: &Input) -> Spare {
    let lows = [2, 0, 1, 3, 16, 1 << 31, u32::MAX];
    Spare {
        low: lows[usize::from(input.choice(Choice::Low) % 7)],
        bits: match input.choice(Choice::Event) >> 6 {
            0 => 0,
            1 => input.free(),
            2 => 1 << 31 | 15,
            _ => u32::MAX,
        },
    }
}

/// The lent group: the input's or an ordinary one, as it is, long, or cut.
fn group(input: &Input) -> Vec<u8> {
    let mut group = input.group.clone();
    if group.is_empty() {
        group = Piece::group(8005, &[Piece::string(3001, b"QM1 ")]).bytes;
    }
    match input.choice(Choice::Group) {
        1 => swell(&mut group, 12, 65_500),
        2 => swell(&mut group, 12, 65_504),
        3 => group.truncate(group.len() - 1),
        4 => group.clear(),
        _ => {}
    }
    group
}

fn report(input: &Input, group: usize) -> usize {
    match input.choice(Choice::Report) {
        1 => 0,
        2 => 35,
        3 => 36,
        4 => 36 + group - 1.min(group),
        5 => 36 + group,
        other => 36 + group + usize::from(other),
    }
}

fn sheet(input: &Input) -> Sheet {
    let mut identifiers = match input.choice(Choice::Sheet) {
        1 => IBM,
        2 => SPECIAL,
        _ => MADE_UP,
    };
    let change = input.choice(Choice::Change);
    let (at, next) = (usize::from(change % 8), usize::from((change % 8 + 1) % 8));
    match change / 8 {
        1 => identifiers[at] = identifiers[next],
        2 => identifiers.swap(at, next),
        3 => identifiers[at] = 0,
        4 => identifiers[at] = 1 << 31,
        5 => identifiers[at] = i32::MAX as u32,
        6 => identifiers[at] = input.free(),
        _ => {}
    }
    Sheet::new(identifiers)
}

fn values(input: &Input) -> Values {
    let mut values = [0; 8];
    for (attribute, value) in values.iter_mut().enumerate() {
        let choice = usize::from(input.value(attribute) % 8);
        let table = VALUES[attribute];
        *value = table.get(choice).copied().unwrap_or(input.free());
    }
    Values::from_array(values)
}

fn depth(input: &Input) -> u32 {
    match input.choice(Choice::Depth) {
        1 => 0,
        2 => 8,
        3 => 9,
        4 => u32::MAX,
        5 => input.free(),
        _ => 1,
    }
}

fn number(input: &Input) -> usize {
    match input.choice(Choice::Number) {
        6 => usize::MAX,
        7 => input.free() as usize,
        other => usize::from(other % 8),
    }
}

/// Names that are often there, or any number.
fn identifier(input: &Input) -> u32 {
    let choice = input.choice(Choice::Name);
    let name = NAMES.get(usize::from(choice));
    name.copied().unwrap_or(input.free())
}
