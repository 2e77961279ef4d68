//! Builders of structures and messages, byte by byte.

use crate::check::KINDS;

/// A structure with all its members, and how many of each type it has.
#[derive(Clone, Debug, PartialEq, Eq)]
pub struct Piece {
    pub bytes: Vec<u8>,
    pub tally: [u32; KINDS],
}

impl Piece {
    /// A structure whose StrucLength covers fields, data and padding. Whether
    /// it is sound is the caller's care.
    pub fn new(kind: u32, parameter: u32, fields: &[u32], data: &[u8], padding: &[u8]) -> Piece {
        let length = 12 + 4 * fields.len() + data.len() + padding.len();
        let mut bytes = Vec::with_capacity(length);
        for number in [kind, length as u32, parameter].iter().chain(fields) {
            bytes.extend_from_slice(&number.to_be_bytes());
        }
        bytes.extend_from_slice(data);
        bytes.extend_from_slice(padding);
        let mut tally = [0; KINDS];
        if let Some(count) = tally.get_mut(kind as usize) {
            *count = 1;
        }
        Piece { bytes, tally }
    }

    pub fn integer(parameter: u32, value: u32) -> Piece {
        Piece::new(3, parameter, &[value], &[], &[])
    }

    /// A string with the shortest padding, of zeros.
    pub fn string(parameter: u32, data: &[u8]) -> Piece {
        let padding = vec![0; data.len().wrapping_neg() % 4];
        Piece::new(4, parameter, &[0, data.len() as u32], data, &padding)
    }

    pub fn group(parameter: u32, members: &[Piece]) -> Piece {
        let mut group = Piece::new(20, parameter, &[members.len() as u32], &[], &[]);
        for member in members {
            group.bytes.extend_from_slice(&member.bytes);
            for (sum, count) in group.tally.iter_mut().zip(member.tally) {
                *sum += count;
            }
        }
        group
    }

    pub fn is_group(&self) -> bool {
        self.bytes.starts_with(&20u32.to_be_bytes())
    }

    pub fn parameter(&self) -> u32 {
        let mut four = [0; 4];
        four.copy_from_slice(&self.bytes[8..12]);
        u32::from_be_bytes(four)
    }

    pub fn set_parameter(&mut self, parameter: u32) {
        self.bytes[8..12].copy_from_slice(&parameter.to_be_bytes());
    }

    /// How many structures the piece has, itself included.
    pub fn structures(&self) -> usize {
        self.tally.iter().map(|&count| count as usize).sum()
    }
}

/// Header fields (all but the count) and then the pieces.
pub fn assemble(fields: [u32; 8], pieces: &[Piece]) -> Vec<u8> {
    let mut bytes = Vec::new();
    for number in fields.into_iter().chain([pieces.len() as u32]) {
        bytes.extend_from_slice(&number.to_be_bytes());
    }
    for piece in pieces {
        bytes.extend_from_slice(&piece.bytes);
    }
    bytes
}

/// Bytes that the pieces take.
pub(super) fn size(pieces: &[Piece]) -> usize {
    pieces.iter().map(|piece| piece.bytes.len()).sum()
}
