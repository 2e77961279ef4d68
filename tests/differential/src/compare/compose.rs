//! Compose, and reading back what it wrote.

use super::bytes::same;
use super::expect;
use super::given::Given;
use super::numbers::Spare;
use super::traces::read;
use crate::ffi::{self, Answer, Around};
use decoder::{Contents, Embedding, Form, Layout, Sheet, Values};
use std::hint::black_box;

/// What compose is lent for reading, and the form that the call names.
#[derive(Clone, Copy, Debug)]
pub struct Draft<'a> {
    pub layout: Layout,
    pub sheet: Sheet,
    pub values: Values,
    pub embedding: Embedding,
    pub user_data: &'a [u8],
    pub spare: Spare,
}

impl Draft<'_> {
    /// The decoder's composing.
    fn theirs(&self, buffer: &mut [u8]) -> Result<usize, decoder::Refusal> {
        decoder::compose(
            self.layout,
            &self.sheet,
            &self.values,
            &self.embedding,
            self.user_data,
            buffer,
        )
    }

    /// The library's; what it is lent for reading has to stay.
    pub fn ours(&self, buffer: &mut [u8]) -> Answer {
        let (sheet, values) = (self.sheet.identifiers, self.values.to_array());
        let fields = expect::fields(&self.embedding);
        let around = Around {
            fields,
            format: self.embedding.format,
            user: self.user_data,
        };
        let options = self.spare.reading(self.layout);
        let answer = ffi::compose(&sheet, &values, options, &around, buffer);
        assert_eq!(black_box(&sheet), &self.sheet.identifiers, "the sheet");
        assert_eq!(black_box(&values), &self.values.to_array(), "the values");
        assert_eq!(black_box(&around).fields, fields, "the fields");
        assert_eq!(around.format, self.embedding.format, "the format");
        answer
    }

    /// The library's way for plain messages.
    fn ours_plain(&self, buffer: &mut [u8]) -> Answer {
        let (sheet, values) = (self.sheet.identifiers, self.values.to_array());
        let answer = ffi::compose_plain(&sheet, &values, buffer);
        assert_eq!(black_box(&sheet), &self.sheet.identifiers, "the sheet");
        assert_eq!(black_box(&values), &self.values.to_array(), "the values");
        answer
    }

    /// What read has to give of the composed message: of a plain one neither
    /// embedding nor user data.
    fn contents(&self) -> Contents {
        let (embedding, user_data_place) = match self.layout.form {
            Form::Plain => (Embedding::NONE, 180),
            Form::Embedded => (self.embedding, 212),
        };
        Contents {
            values: self.values,
            embedding,
            user_data_place,
        }
    }
}

/// Composes into the buffer, and reads back what was written.
pub fn compare_compose(draft: &Draft, buffer: &mut [u8]) -> Answer {
    let before = buffer.to_vec();
    let mut wanted = before.clone();
    let composed = draft.theirs(&mut wanted);
    let answer = draft.ours(buffer);
    let expected = expect::answer(composed.map(|length| length as u64));
    assert_eq!(answer, expected, "compose");
    same("compose: the buffer", buffer, &wanted);
    if draft.layout == Layout::PLAIN {
        let mut plain = before.clone();
        assert_eq!(draft.ours_plain(&mut plain), expected, "compose plain");
        same("compose plain: the buffer", &plain, &wanted);
    }
    if answer.is_refused() {
        same("compose: the buffer after a refusal", buffer, &before);
    } else {
        read_back(draft, buffer, answer.value() as usize);
    }
    answer
}

/// A composed message reads back as what it was made from.
fn read_back(draft: &Draft, buffer: &[u8], length: usize) {
    let given = Given {
        buffer,
        length,
        layout: draft.layout,
        spare: draft.spare,
    };
    let (answer, found) = read(given, &draft.sheet);
    let wanted = draft.contents();
    let place = wanted.user_data_place;
    assert_eq!(
        answer,
        Answer::given(place as u64),
        "read of a composed one"
    );
    assert_eq!(found, expect::contents(&wanted), "contents read back");
    if draft.layout.form == Form::Embedded {
        same("user data", &buffer[place..length], draft.user_data);
    }
}
