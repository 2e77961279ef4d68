//! What stands around the PCF part of an embedded message.

/// `GW_OPTION_EMBEDDED`: without it a message is plain.
pub const EMBEDDED: u32 = 16;

/// Encoding, CodedCharSetId and Flags, as `enum gw_field` numbers them.
pub type Fields = [u32; 3];

pub type Format = [u8; 8];

/// What compose puts around the part.
#[derive(Clone, Copy, Debug)]
pub struct Around<'a> {
    pub fields: Fields,
    pub format: Format,
    pub user: &'a [u8],
}

impl Around<'_> {
    /// What a plain message may be composed with.
    pub const NOTHING: Around<'static> = Around {
        fields: [0; 3],
        format: [0; 8],
        user: &[],
    };
}
