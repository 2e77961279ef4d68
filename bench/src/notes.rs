//! What the numbers mean.

use crate::measure::{PASSES, ROUNDS};

pub fn print() {
    println!("Notes");
    println!();
    println!(
        "- Nanoseconds for one call, the best of {} rounds of 1 to 2 ms. The rounds alternate \
         between all columns of a row, after a warm-up, in one run of {PASSES} passes over all rows.",
        PASSES * ROUNDS
    );
    println!(
        "- Library: the proved code, called through its C header. Rust: the independent decoder's \
         own function, as cargo's release profile compiles it. C: a check written by hand, \
         compiled with -O3."
    );
    println!(
        "- check, tally: both sides walk the message once. The library's tally writes 27 lent \
         counts, the decoder's returns them."
    );
    println!(
        "- list: the library may write the lent text only once it knows that the message is \
         sound. The decoder writes while it walks, into a String that it allocates and that is \
         freed again, both within the time."
    );
    println!(
        "- flat: a TraceRoute group, then integers of 16 bytes and one string to the end. Groups \
         to depth 8: Activity groups of 176 bytes, each with seven more groups one in another, \
         each of which is the last one due where it stands; a string behind each: the same with \
         a string of 24 bytes behind every inner group."
    );
    println!(
        "- read and what builds on it (forward, events, names) walk the whole message on both \
         sides. The library writes lent values, the decoder returns them."
    );
    println!(
        "- compose: plain messages by gw_compose_plain, embedded ones by gw_compose, without user \
         data."
    );
    events();
    println!(
        "- name: a direct string of the first or last Activity group: 28 bytes, 16 of them trailing \
         blanks; in the deep groups 4 bytes without any."
    );
}

fn events() {
    println!(
        "- activity: lends a group of 300 bytes, which is checked. Unrecorded, it raises a \
         counter only; appended and reported, it also writes 300 bytes behind the part and a \
         report of 336. The header's count is put back before each call, 4 bytes on both sides; \
         the counters go on rising. Both sides work on the same memory in turns."
    );
    println!(
        "- embedded: the composed trace with an embedded header of 32 bytes before it, and behind \
         it nothing, or 32,768 bytes of user data, which an append moves back by the group's 300 \
         bytes and nothing else looks at. Before each call the headers' two numbers are put back, 8 \
         bytes on all sides. The user data are not: the next call finds as many bytes to move, \
         and what they are makes no difference to it."
    );
    println!(
        "- append by hand: plain Rust that knows all places and writes only what an append \
         changes in the message: copy_within for the user data, copy_from_slice for the group, \
         and three numbers. It walks over nothing, checks nothing and reports nothing, so that only \
         its difference compares with the others'. The difference is the move, and what that \
         pushes out of the caches."
    );
}
