//! What tests know by heart: two sheets, a composed message, and a real event.

/// IBM's own identifiers of the eight attributes.
pub const IBM: [u32; 8] = [1234, 1235, 1257, 1237, 1236, 1238, 1259, 1239];

/// A made-up sheet.
pub const MADE_UP: [u32; 8] = [1201, 1202, 1203, 1204, 1205, 1206, 1207, 1208];

/// The listing of every composed message under the made-up sheet.
pub const COMPOSED_LISTING: &str = "pcf 10 75 1 180\n\
    1 36 20 8003 16\n\
    2 52 3 1201 16\n\
    2 68 3 1202 16\n\
    2 84 3 1203 16\n\
    2 100 3 1204 16\n\
    2 116 3 1205 16\n\
    2 132 3 1206 16\n\
    2 148 3 1207 16\n\
    2 164 3 1208 16\n\
    end 9\n";

/// The listing of the event, read from its dump by eye.
pub const EVENT_004_LISTING: &str = "pcf 7 99 2 300\n\
    1 36 20 8001 16\n\
    2 52 4 3045 32\n\
    2 84 3 1011 16\n\
    2 100 4 3047 68\n\
    2 168 3 1021 16\n\
    1 184 20 8002 16\n\
    2 200 4 3067 24\n\
    2 224 3 1016 16\n\
    2 240 6 3065 36\n\
    2 276 5 1116 24\n\
    end 10\n";

/// The dump with its comments; kept as data beside the package.
const EVENT_004: &str = include_str!("../../data/event-004.hex");

/// The 300-byte command event of document 004.
pub fn event_004() -> Vec<u8> {
    let digits: Vec<u8> = EVENT_004
        .lines()
        .filter(|line| !line.starts_with('#'))
        .flat_map(|line| line.chars())
        .filter_map(|digit| digit.to_digit(16))
        .map(|digit| digit as u8)
        .collect();
    digits
        .chunks_exact(2)
        .map(|pair| pair[0] * 16 + pair[1])
        .collect()
}
