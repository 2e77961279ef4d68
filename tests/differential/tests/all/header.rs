//! The header still says what the declarations in `src/ffi` were written from.
//! Nothing else would notice a change there before the stack does.

const HEADER: &str = include_str!("../../../../include/gwirandol.h");

const DECLARATIONS: [&str; 34] = [
    "typedef uint64_t gw_answer;",
    "{ return (uint32_t)(answer % 32); }",
    "{ return answer / 32; }",
    "uint32_t gw_version(void);",
    "#define GW_WORDS_BYTES 128 ",
    "size_t gw_words(uint32_t refusal, char text[GW_WORDS_BYTES]);",
    "typedef struct gw_text { char text[GW_WORDS_BYTES]; } gw_text;",
    "static inline gw_text gw_in_words(uint32_t refusal) { gw_text words = {{0}}; \
     gw_words(refusal, words.text); return words; }",
    "uint32_t gw_feedback(uint32_t refusal);",
    "gw_answer gw_check(const uint8_t *buffer, size_t size, size_t length, uint32_t options);",
    "gw_answer gw_tally(const uint8_t *buffer, size_t size, size_t length, uint32_t options, \
     uint32_t counts[27]);",
    "#define GW_LISTING_BYTES 131072 ",
    "gw_answer gw_list(const uint8_t *buffer, size_t size, size_t length, uint32_t options, \
     uint8_t text[GW_LISTING_BYTES]);",
    "typedef struct gw_row { uint64_t depth; uint64_t place; uint64_t type; uint64_t parameter; \
     uint64_t length; uint64_t members; uint64_t next; } gw_row;",
    "gw_answer gw_step(const uint8_t *buffer, size_t size, size_t length, uint32_t options, \
     size_t place, uint32_t depth, gw_row *row);",
    "#define GW_FIELDS 3 ",
    "#define GW_FORMAT_BYTES 8 ",
    "enum gw_field { GW_FIELD_ENCODING = 0, GW_FIELD_CODED_CHAR_SET_ID = 1, \
     GW_FIELD_FLAGS = 2 };",
    "gw_answer gw_compose(const uint32_t sheet[8], const uint32_t values[8], uint32_t options, \
     const uint32_t fields[GW_FIELDS], const uint8_t format[GW_FORMAT_BYTES], \
     const uint8_t *user, size_t user_size, uint8_t *buffer, size_t size);",
    "gw_answer gw_compose_plain(const uint32_t sheet[8], const uint32_t values[8], \
     uint8_t *buffer, size_t size);",
    "gw_answer gw_read(const uint8_t *buffer, size_t size, size_t length, \
     const uint32_t sheet[8], uint32_t options, uint32_t values[8], \
     uint32_t fields[GW_FIELDS], uint8_t format[GW_FORMAT_BYTES]);",
    "enum gw_decision { GW_DECIDED_FORWARD = 1, GW_DECIDED_PUT = 2, GW_DECIDED_WITHHOLD = 3 };",
    "gw_answer gw_forward(const uint8_t *buffer, size_t size, size_t length, \
     const uint32_t sheet[8], uint32_t options);",
    "gw_answer gw_arrive(const uint8_t *buffer, size_t size, size_t length, \
     const uint32_t sheet[8], uint32_t options);",
    "typedef struct gw_part { uint64_t place; uint64_t length; } gw_part;",
    "void gw_activity_group(const uint8_t *buffer, size_t size, size_t length, \
     const uint32_t sheet[8], uint32_t options, size_t n, gw_part *part);",
    "bool gw_named_string(const uint8_t *buffer, size_t size, size_t length, \
     const uint32_t sheet[8], uint32_t options, size_t n, uint32_t identifier, gw_part *part);",
    "typedef struct gw_done { uint64_t counter; uint64_t appended; uint64_t report_length; \
     uint64_t message_length; } gw_done;",
    "enum gw_level { GW_LEVEL_LOW = 2, GW_LEVEL_MEDIUM = 8, GW_LEVEL_HIGH = 32 };",
    "enum gw_option { GW_OPTION_REPORTS_ASKED = 1, GW_OPTION_ACTIVITY_RECORDING = 2, \
     GW_OPTION_TRACE_ROUTE_MESSAGING = 4, GW_OPTION_REMOTE_SUPPORTS = 8, \
     GW_OPTION_EMBEDDED = 16 };",
    "enum gw_feedback_code { GW_MQFB_MAX_ACTIVITIES = 282, GW_MQFB_NOT_FORWARDED = 283, \
     GW_MQFB_UNSUPPORTED_FORWARDING = 285, GW_MQFB_UNSUPPORTED_DELIVERY = 286 };",
    "gw_answer gw_discontinuity(uint8_t *buffer, size_t size, size_t length, \
     const uint32_t sheet[8], uint32_t options, gw_done *done);",
    "gw_answer gw_activity(uint8_t *buffer, size_t size, size_t length, \
     const uint32_t sheet[8], uint32_t options, uint32_t level, const uint8_t *group, \
     size_t group_size, uint8_t *report, size_t report_size, gw_done *done);",
    "#define GW_ATTRIBUTES 8 ",
];

/// The header without its comments and on one line, so that neither they nor
/// line breaks matter.
fn words() -> String {
    let mut plain = String::new();
    let mut rest = HEADER;
    while let Some((before, comment)) = rest.split_once("/*") {
        plain += before;
        rest = comment.split_once("*/").expect("a comment ends").1;
    }
    plain += rest;
    plain.split_whitespace().collect::<Vec<_>>().join(" ")
}

/// Whether a declaration is that of a function of the library: it ends with its
/// parameters, and its name comes behind a type.
fn is_function(declaration: &str) -> bool {
    let declaration = declaration.trim();
    declaration.ends_with(')') && declaration.contains(" gw_") && !declaration.contains("return")
}

#[test]
fn declarations() {
    let header = words();
    for declaration in DECLARATIONS {
        assert!(header.contains(declaration), "{declaration}");
    }
    // And there is no function besides.
    let known = DECLARATIONS
        .iter()
        .filter_map(|text| text.strip_suffix(';'))
        .filter(|text| is_function(text));
    let declared = header.split(';').filter(|text| is_function(text));
    assert_eq!((declared.count(), known.count()), (16, 16));
}

/// The number that the header defines under a name.
fn defined(name: &str) -> u32 {
    let header = words();
    let (_, behind) = header
        .split_once(&format!("#define {name} "))
        .expect("the header defines it");
    let number = behind.split(' ').next().expect("a number");
    number.parse().expect("a number")
}

#[test]
fn version() {
    let part = |name: &str| defined(&format!("GW_VERSION_{name}"));
    let [major, minor, patch] = ["MAJOR", "MINOR", "PATCH"].map(part);
    let number = major * 1_000_000 + minor * 1_000 + patch;
    assert_eq!(differential::ffi::version(), number);
    let text = format!("#define GW_VERSION_TEXT \"{major}.{minor}.{patch}\"");
    assert!(words().contains(&text), "{text}");
    let sum = "#define GW_VERSION (GW_VERSION_MAJOR * 1000000 + GW_VERSION_MINOR * 1000 + \
               GW_VERSION_PATCH) ";
    assert!(words().contains(sum), "{sum}");
}

/// The rules' refusal numbers, the attributes in their order and their values, IBM's sheet.
const NUMBERS: [&str; 39] = [
    "GW_ACCEPTED = 0,",
    "GW_REFUSED_LENGTH = 1,",
    "GW_REFUSED_HEADER = 2,",
    "GW_REFUSED_STRUCTURE = 3,",
    "GW_REFUSED_DEPTH = 4,",
    "GW_REFUSED_LEFT_OVER = 5,",
    "GW_REFUSED_TRACE_HEADER = 6,",
    "GW_REFUSED_TRACE_ROUTE = 7,",
    "GW_REFUSED_ATTRIBUTE = 8,",
    "GW_REFUSED_GROUP = 9,",
    "GW_REFUSED_MAX_ACTIVITIES = 10,",
    "GW_REFUSED_COUNTER_FULL = 11,",
    "GW_REFUSED_NO_ROOM = 12,",
    "GW_REFUSED_REPORT_TOO_SHORT = 13,",
    "GW_REFUSED_UNSUPPORTED_DELIVERY = 14,",
    "GW_REFUSED_UNSUPPORTED_FORWARDING = 15,",
    "GW_REFUSED_NOT_FORWARDED = 16,",
    "GW_REFUSED_SHEET = 17,",
    "GW_REFUSED_EMBEDDED_HEADER = 18 ",
    "GW_ATTR_DETAIL = 0,",
    "GW_ATTR_RECORDED_ACTIVITIES = 1,",
    "GW_ATTR_UNRECORDED_ACTIVITIES = 2,",
    "GW_ATTR_DISCONTINUITY_COUNT = 3,",
    "GW_ATTR_MAX_ACTIVITIES = 4,",
    "GW_ATTR_ACCUMULATE = 5,",
    "GW_ATTR_FORWARD = 6,",
    "GW_ATTR_DELIVER = 7 ",
    "GW_MQROUTE_DETAIL_LOW = 2,",
    "GW_MQROUTE_DETAIL_MEDIUM = 8,",
    "GW_MQROUTE_DETAIL_HIGH = 32,",
    "GW_MQROUTE_UNLIMITED_ACTIVITIES = 0,",
    "GW_MQROUTE_ACCUMULATE_NONE = 0x10003,",
    "GW_MQROUTE_ACCUMULATE_IN_MSG = 0x10004,",
    "GW_MQROUTE_ACCUMULATE_AND_REPLY = 0x10005,",
    "GW_MQROUTE_FORWARD_ALL = 0x100,",
    "GW_MQROUTE_FORWARD_IF_SUPPORTED = 0x200,",
    "GW_MQROUTE_DELIVER_YES = 0x1000,",
    "GW_MQROUTE_DELIVER_NO = 0x2000 ",
    "#define GW_IBM_SHEET {1234, 1235, 1257, 1237, 1236, 1238, 1259, 1239}",
];

#[test]
fn numbers() {
    let header = words();
    for number in NUMBERS {
        assert!(header.contains(number), "{number}");
    }
}
