//! Inputs of compose.

use super::embed::any_embedding;
use super::random::Random;
use super::sheet::any_sheet;
use super::user_data::user_data;
use super::values::any_values;
use crate::attribute::Values;
use crate::embedded::Embedding;
use crate::layout::{Form, Layout};
use crate::sheet::Sheet;

/// What compose takes. Embedding and user data are there in the plain form too,
/// where they have no meaning.
#[derive(Clone, Debug, PartialEq, Eq)]
pub struct ComposeCase {
    pub layout: Layout,
    pub sheet: Sheet,
    pub values: Values,
    pub embedding: Embedding,
    pub user_data: Vec<u8>,
    pub buffer: Vec<u8>,
}

/// Sheet and values are mostly sound. The buffer is exact, a byte or more too
/// short, or longer; now and then the user data fill the longest message, or
/// are too long for it.
pub fn compose_case(random: &mut Random, layout: Layout) -> ComposeCase {
    let full = random.chance(8);
    let user_data = if full {
        let size = random.pick(&[65_323, 65_324, 65_324, 65_325, 65_325, 70_000]);
        random.bytes(size)
    } else {
        user_data(random, 3000)
    };
    let length = match layout.form {
        Form::Plain => 180,
        Form::Embedded => 212 + user_data.len(),
    };
    let size = match random.below(10) {
        0 => random.pick(&[0, 179, 180, 211]),
        1 => length - 1,
        2 => random.below(length),
        3..=6 => length,
        _ => length + random.between(1, 100),
    };
    ComposeCase {
        layout,
        sheet: any_sheet(random),
        values: any_values(random),
        embedding: any_embedding(random),
        user_data,
        buffer: random.bytes(size),
    }
}
