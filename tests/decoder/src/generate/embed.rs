//! Whole messages around a PCF part: in the plain form the part itself, in the
//! embedded form with a header before it and user data behind it.

use super::layout::bytes_before;
use super::random::Random;
use super::user_data::user_data;
use crate::embedded::Embedding;
use crate::header::MESSAGE_MAX;
use crate::layout::{Form, Layout};

/// A message with what its builder knows of it.
#[derive(Clone, Debug, PartialEq, Eq)]
pub struct Laid {
    pub bytes: Vec<u8>,
    pub layout: Layout,
    /// The sender's fields, zero in the plain form.
    pub embedding: Embedding,
    /// Where the user data begin: the PCF part's end.
    pub user_data_place: usize,
}

/// Puts a message of the layout around the PCF part. Such a part of an
/// embedded message leaves room for 32 bytes more.
pub fn lay_out(random: &mut Random, layout: Layout, part: Vec<u8>) -> Laid {
    let user_data_place = bytes_before(layout) + part.len();
    if layout.form == Form::Plain {
        return Laid {
            bytes: part,
            layout,
            embedding: Embedding::NONE,
            user_data_place,
        };
    }
    let embedding = any_embedding(random);
    let room = MESSAGE_MAX.saturating_sub(user_data_place);
    let user_data = user_data(random, room);
    Laid {
        bytes: embed(&embedding, &part, &user_data),
        layout,
        embedding,
        user_data_place,
    }
}

/// An embedded message, byte by byte.
pub fn embed(embedding: &Embedding, part: &[u8], user_data: &[u8]) -> Vec<u8> {
    let end = 32 + part.len() as u32;
    let mut bytes = b"EPH ".to_vec();
    for number in [1, end, embedding.encoding, embedding.coded_char_set_id] {
        bytes.extend_from_slice(&number.to_be_bytes());
    }
    bytes.extend_from_slice(&embedding.format);
    bytes.extend_from_slice(&embedding.flags.to_be_bytes());
    bytes.extend_from_slice(part);
    bytes.extend_from_slice(user_data);
    bytes
}

/// The sender's fields: usual ones, any numbers, none, and such as can be read
/// as a structure that begins with Encoding, at place 12.
pub fn any_embedding(random: &mut Random) -> Embedding {
    if random.chance(8) {
        return Embedding::NONE;
    }
    let any = random.word();
    let (encoding, coded_char_set_id) = match random.below(6) {
        0 => (3, 16),
        1 => (20, 16),
        _ => (
            random.pick(&[0, 1, 273, 546, 785, u32::MAX, any]),
            random.pick(&[0, 37, 819, 1208, u32::MAX, !any]),
        ),
    };
    let mut format = [0; 8];
    format.copy_from_slice(&random.bytes(8));
    Embedding {
        encoding,
        coded_char_set_id,
        format: random.pick(&[*b"MQSTR   ", *b"MQEPH   ", [b' '; 8], [0; 8], format]),
        flags: random.pick(&[0, 1, u32::MAX, any.rotate_left(7)]),
    }
}
