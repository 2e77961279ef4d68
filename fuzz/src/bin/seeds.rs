//! Writes the first inputs into a folder: known messages in both forms, as they
//! stand and with choices.

use decoder::generate::{assemble, embed, Piece};
use decoder::sample::{self, IBM, MADE_UP};
use decoder::{Embedding, Header, Layout, Sheet, Values};
use fuzz::layout::{Choice, Input};
use std::path::Path;
use std::{env, fs, io};

/// Detail medium, so that two levels can be recorded and one cannot; nothing
/// counted, no limit; accumulated in the message.
const VALUES: [u32; 8] = [8, 0, 0, 0, 0, 0x10004, 0x100, 0x2000];

fn composed(sheet: [u32; 8], values: [u32; 8]) -> Vec<u8> {
    let mut message = vec![0; 180];
    let composed = decoder::compose(
        Layout::PLAIN,
        &Sheet::new(sheet),
        &Values::from_array(values),
        &Embedding::NONE,
        &[],
        &mut message,
    );
    assert_eq!(composed, Ok(180));
    message
}

/// An Activity group with names, one of them with trailing blanks and zeros.
fn activity() -> Piece {
    Piece::group(
        8005,
        &[
            Piece::string(3001, b"QM1 \0\0  "),
            Piece::integer(1201, 1),
            Piece::string(3002, b""),
        ],
    )
}

fn header() -> [u32; 8] {
    let mut fields = [0; 8];
    fields.copy_from_slice(&Header::TRACE_ROUTE.fields()[..8]);
    fields
}

/// Two Activity groups around the TraceRoute group.
fn trace() -> Vec<u8> {
    let pairs = MADE_UP.into_iter().zip(VALUES);
    let members: Vec<Piece> = pairs
        .map(|(name, value)| Piece::integer(name, value))
        .collect();
    assemble(
        header(),
        &[activity(), Piece::group(8003, &members), activity()],
    )
}

/// A group at depth 8, and one of each of the other types.
fn structures() -> Vec<u8> {
    let leaves = [
        Piece::integer(1, 2),
        Piece::string(2, b"one"),
        Piece::new(5, 3, &[2, 7, 8], &[], &[]),
        Piece::new(6, 4, &[0, 2, 4], b"one two ", &[0; 4]),
        Piece::new(9, 5, &[4], b"byte", &[]),
        Piece::new(13, 6, &[1, 2], &[], &[]),
        Piece::new(14, 7, &[1, 0, 4], b"text", &[]),
        Piece::new(15, 8, &[1, 4], b"byte", &[]),
        Piece::new(23, 9, &[0, 0, 1], &[], &[]),
        Piece::new(25, 10, &[1, 0, 1], &[], &[]),
    ];
    let deep = (0..8).fold(Piece::integer(1, 2), |inner, _| Piece::group(1, &[inner]));
    assemble(header(), &[&leaves[..], &[deep]].concat())
}

/// What a sender may say of user data in ASCII.
const EMBEDDING: Embedding = Embedding {
    encoding: 273,
    coded_char_set_id: 819,
    format: *b"MQSTR   ",
    flags: 0,
};

/// What can be read as a structure, an integer that begins with Encoding.
const INTEGER: Embedding = Embedding {
    encoding: 3,
    coded_char_set_id: 16,
    ..EMBEDDING
};

type Seed = (&'static str, Vec<u8>);

/// Each with the name of its file. A message stands as it is.
fn plain() -> Vec<Seed> {
    let (trace, ibm) = (trace(), composed(IBM, VALUES));
    let input = |message| Input::new(message, Layout::PLAIN);
    vec![
        ("composed", composed(MADE_UP, VALUES)),
        ("event-004", sample::event_004()),
        ("structures", structures()),
        ("activities", trace.clone()),
        ("lent-group", with_group(input(&trace))),
        ("ibm-sheet", input(&ibm).choose(Choice::Sheet, 1).bytes()),
        ("no-room", input(&trace).choose(Choice::Room, 2).bytes()),
        ("no-report", input(&trace).choose(Choice::Report, 4).bytes()),
        ("long", input(&trace).choose(Choice::Swell, 4).bytes()),
        (
            "name",
            input(&trace)
                .choose(Choice::Name, 9)
                .with_free(3002)
                .bytes(),
        ),
    ]
}

/// The same messages embedded: without user data, with some of odd lengths, and
/// with such as look like what stands before them.
fn embedded() -> Vec<Seed> {
    let integer = embed(&INTEGER, &trace(), b"");
    let embed = |part: &[u8], user_data: &[u8]| embed(&EMBEDDING, part, user_data);
    let user_data = embed(&trace(), b"hello");
    let alike = embed(&trace(), &activity().bytes);
    let input = |message| Input::new(message, Layout::EMBEDDED);
    vec![
        ("embedded", embed(&composed(MADE_UP, VALUES), b"hello")),
        ("embedded-event-004", embed(&sample::event_004(), &[])),
        ("embedded-structures", embed(&structures(), b"!")),
        ("embedded-activities", alike.clone()),
        ("embedded-lent-group", with_group(input(&user_data))),
        (
            "embedded-no-room",
            input(&alike).choose(Choice::Room, 2).bytes(),
        ),
        (
            "embedded-long",
            input(&user_data).choose(Choice::Swell, 4).bytes(),
        ),
        (
            "embedded-much-user-data",
            input(&user_data).choose(Choice::Swell, 9).bytes(),
        ),
        (
            "embedded-structure-in-the-header",
            input(&integer).choose(Choice::Place, 12).bytes(),
        ),
        (
            "embedded-read-as-plain",
            Input::new(&alike, Layout::PLAIN).bytes(),
        ),
    ]
}

/// An input with an Activity group of its own.
fn with_group(mut input: Input) -> Vec<u8> {
    input.group = activity().bytes;
    input.bytes()
}

fn main() -> io::Result<()> {
    let Some(folder) = env::args_os().nth(1) else {
        eprintln!("usage: seeds FOLDER");
        std::process::exit(2);
    };
    fs::create_dir_all(&folder)?;
    for (name, bytes) in plain().into_iter().chain(embedded()) {
        fs::write(Path::new(&folder).join(name), bytes)?;
    }
    Ok(())
}
