//! The messages that are measured: all of them sound traces.

use crate::ffi::EMBEDDED;
use decoder::generate::{assemble, embed, Piece};
pub use decoder::sample::IBM as SHEET;
use decoder::{Embedding, Form, Header, Layout, Sheet, Values};

/// Low detail, nothing counted, no limit, accumulated in the message, to be
/// forwarded to all and delivered.
pub const VALUES: [u32; 8] = [2, 0, 0, 0, 0, 0x10004, 0x100, 0x1000];

/// User data of a usual text message.
pub const EMBEDDING: Embedding = Embedding {
    encoding: 273,
    coded_char_set_id: 819,
    format: *b"MQSTR   ",
    flags: 0,
};

/// Identifier of an application's name, a direct string of each Activity group.
pub const APPLICATION: u32 = 3024;

pub const LARGEST: usize = 65_536;

/// A message with its name in the tables.
pub struct Input {
    pub name: &'static str,
    pub message: Vec<u8>,
    pub layout: Layout,
}

impl Input {
    pub fn plain(name: &'static str, message: Vec<u8>) -> Input {
        Input {
            name,
            message,
            layout: Layout::PLAIN,
        }
    }

    /// A composed trace with so many bytes of user data.
    fn embedded(name: &'static str, user_bytes: usize) -> Input {
        // A prime, so that bytes at a wrong place don't look like the right ones.
        let user: Vec<u8> = (0..user_bytes).map(|place| (place % 251) as u8).collect();
        Input {
            name,
            message: embed(&EMBEDDING, &composed(), &user),
            layout: Layout::EMBEDDED,
        }
    }

    /// What both sides are lent, and its layout as each of them is told it.
    pub fn lent(&self) -> (&[u8], usize, Layout, u32) {
        let length = self.message.len();
        (&self.message, length, self.layout, options(self.layout))
    }
}

/// What the library is told of a layout.
pub fn options(layout: Layout) -> u32 {
    match layout.form {
        Form::Plain => 0,
        Form::Embedded => EMBEDDED,
    }
}

pub struct Inputs {
    pub plain: [Input; 5],
    /// Without user data, and with.
    pub embedded: [Input; 2],
}

impl Inputs {
    /// The plain ones, and the embedded one with user data, which are not to
    /// be walked over.
    pub fn of_both_forms(&self) -> impl Iterator<Item = &Input> {
        self.plain.iter().chain(self.embedded.last())
    }
}

pub fn all() -> Inputs {
    let behind = "a string behind each group to depth 8, 65,536 bytes";
    let with = "composed, embedded, 212 bytes and 32,768 of user data";
    Inputs {
        plain: [
            Input::plain("composed, 180 bytes", composed()),
            Input::plain("20 Activity groups, 6,180 bytes", typical()),
            Input::plain("flat, 65,536 bytes", flat(LARGEST)),
            Input::plain("groups to depth 8, 65,536 bytes", nested(LARGEST)),
            Input::plain(behind, interleaved(LARGEST)),
        ],
        embedded: [
            Input::embedded("composed, embedded, 212 bytes", 0),
            Input::embedded(with, 32_768),
        ],
    }
}

fn trace(pieces: Vec<Piece>) -> Vec<u8> {
    let mut fields = [0; 8];
    fields.copy_from_slice(&Header::TRACE_ROUTE.fields()[..8]);
    assemble(fields, &pieces)
}

fn trace_route() -> Piece {
    let pairs = SHEET.into_iter().zip(VALUES);
    let members: Vec<Piece> = pairs
        .map(|(identifier, value)| Piece::integer(identifier, value))
        .collect();
    Piece::group(8003, &members)
}

fn composed() -> Vec<u8> {
    let mut message = vec![0; 180];
    let (sheet, values) = (Sheet::new(SHEET), Values::from_array(VALUES));
    let (layout, none) = (Layout::PLAIN, Embedding::NONE);
    let composed = decoder::compose(layout, &sheet, &values, &none, &[], &mut message);
    assert_eq!(composed, Ok(180));
    message
}

/// An Activity group of 300 bytes, with names and one operation in it.
pub fn activity() -> Piece {
    let operation = [
        Piece::integer(1351, 2),
        Piece::string(2701, b"2005-01-01  "),
        Piece::string(2702, b"12000000"),
        Piece::string(2015, b"QM1                     "),
    ];
    let members = [
        Piece::integer(1, 6),
        Piece::string(APPLICATION, b"amqrmppa.exe                "),
        Piece::string(2700, &[b'r'; 64]),
        Piece::group(8006, &operation),
    ];
    let group = Piece::group(8005, &members);
    assert_eq!(group.bytes.len(), 300);
    group
}

fn typical() -> Vec<u8> {
    let mut pieces = vec![trace_route()];
    pieces.extend((0..20).map(|_| activity()));
    trace(pieces)
}

/// A trace of exactly this length whose further structures are integers.
pub fn flat(length: usize) -> Vec<u8> {
    fill(length, &Piece::integer(3000, 7))
}

/// A trace of exactly this length whose further structures are Activity
/// groups with a group in a group down to depth 8.
pub fn nested(length: usize) -> Vec<u8> {
    let name = Piece::string(APPLICATION, b"deep");
    let inner = Piece::group(8006, std::slice::from_ref(&name));
    let chain = (3..9).fold(inner, |inner, _| Piece::group(8006, &[inner]));
    fill(length, &Piece::group(8005, &[name, chain]))
}

/// The same with a string behind each inner group, so that no group is the
/// last one due where it stands.
fn interleaved(length: usize) -> Vec<u8> {
    let name = Piece::string(APPLICATION, b"deep");
    let behind = Piece::string(3002, b"more");
    let inner = Piece::group(8006, std::slice::from_ref(&name));
    let chain = (3..9).fold(inner, |inner, _| {
        Piece::group(8006, &[inner, behind.clone()])
    });
    fill(length, &Piece::group(8005, &[name, chain, behind]))
}

/// Repeats the piece and fills up with a string.
fn fill(length: usize, piece: &Piece) -> Vec<u8> {
    let mut pieces = vec![trace_route()];
    let mut left = length - 180;
    while left >= piece.bytes.len() + 20 {
        pieces.push(piece.clone());
        left -= piece.bytes.len();
    }
    if left > 0 {
        pieces.push(Piece::string(3001, &vec![b' '; left - 20]));
    }
    let message = trace(pieces);
    assert_eq!(message.len(), length);
    message
}
