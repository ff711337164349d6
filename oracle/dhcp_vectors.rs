//! Which messages are walked and which replies are built.

use crate::ask_dhcp::{self, OPTIONS_AT, Walk};
use crate::cases::Room::{Empty, Full, Larger, Most, OneMore, OneShort, Shorter};
use crate::dhcp_cases::{DhcpList, SEEDS_IN_TURN, filled};
use crate::draws::{DHCP_SEED, Draws, GUEST_MAC};
pub use crate::guest_frames::{END, PAD, TYPE};
pub use crate::lines::bytes_of;
use crate::lines::ruled_bytes;

/// Messages of a real client, and messages put together by hand; each file says how.
pub const CLIENT_MESSAGES: [&str; 2] = [
    include_str!("dhcp_captured.txt"),
    include_str!("dhcp_composed.txt"),
];

const SMALL_ALPHABET: [u8; 7] = [PAD, 1, 12, TYPE, 54, 254, END];
const CODES: [u8; 6] = [1, 12, 52, TYPE, 54, 254];
const OPTION_LENGTHS: [u8; 6] = [0, 1, 2, 4, 254, 255];
const MESSAGE_TYPES: [u8; 14] = [0, 1, 2, 3, 4, 5, 6, 7, 8, 9, 127, 128, 254, 255];
/// By the first of these byte 240 is 53, by the second byte 241 is.
const TYPE_AT_240: u8 = 240;
const TYPE_AT_241: u8 = 223;

const WALKS: [(&str, fn(&mut DhcpList)); 17] = [
    ("document 01's D1 to D7", marked_cases),
    ("all strings of 0 to 3 of 7 bytes", small_strings),
    ("a value that ends before, with, past the data", value_ends),
    ("an option stepped over to a 53", stepped_over),
    ("pads before, between and behind", pads),
    ("a 53 of length 0 and what follows it", empty_types),
    ("a 53 whose length overruns the data", overrunning_types),
    ("a 53 in another option's value", hidden_types),
    ("two 53s, END before a 53, a 53 last", first_decides),
    ("message types", message_types),
    ("messages around 240 bytes, by rule", around_the_start),
    ("where the walk starts", starts),
    ("drawn options", drawn_options),
    ("drawn options passed, and a drawn end", drawn_ends),
    ("drawn options behind long ones", drawn_behind_long),
    ("options by rule", ruled_options),
    ("far places", far_places),
];

pub fn list() -> String {
    let mut list = DhcpList::new();
    let lines = &mut list.lines;
    lines.comment("Option walks and replies of vpod's dhcp.rs, answered by its published Rust.");
    lines.comment("Printed by oracle/vectors; oracle/README.md says what a line holds.");
    lines.comment(&format!("Drawn by xorshift64 from seed {DHCP_SEED:#018x}."));
    lines.comment("Verdict 07: the Rust panics, and the place is that in the panic's text.");
    lines.comment("Each answer and each place is also what document 01 says.");

    check_shortest_panics();
    for (words, add_cases) in WALKS {
        list.group(&format!("09: {words}"), add_cases);
    }
    for messages in CLIENT_MESSAGES {
        client_messages(&mut list, messages);
    }
    replies(&mut list);
    list.lines
        .comment("0c: the type of the reply to each message type");
    list.reply_types();
    list.lines.finish()
}

/// The Rust panics on no message of under 242 bytes, and on those of 242 where the last two bytes are
/// a 53 and a length of one or more. Each is asked, with every ending of two bytes.
fn check_shortest_panics() {
    for seed in SEEDS_IN_TURN {
        let mut message = filled(seed, OPTIONS_AT);
        for len in 0..=OPTIONS_AT {
            assert!(matches!(ask_dhcp::walk(&message[..len]), Walk::Type(_)));
        }
        message.extend([0; 2]);
        for ending in 0..=u16::MAX {
            let [code, len] = ending.to_be_bytes();
            message[OPTIONS_AT..].copy_from_slice(&[code, len]);
            let cut = ask_dhcp::walk(&message) == Walk::Cut(OPTIONS_AT);
            assert_eq!(cut, code == TYPE && len >= 1);
            let without_length = ask_dhcp::walk(&message[..OPTIONS_AT + 1]);
            assert!(matches!(without_length, Walk::Type(_)));
        }
    }
}

fn marked_cases(list: &mut DhcpList) {
    let cases: [(&[u8], Walk); 7] = [
        (&[TYPE, 1, 1, END], Walk::Type(1)),
        (&[TYPE, 1], Walk::Cut(240)),
        (&[TYPE], Walk::Type(0)),
        (&[TYPE, 0, TYPE, 1, 3], Walk::Type(3)),
        (&[PAD, PAD, TYPE, 5, 1], Walk::Type(1)),
        (&[TYPE, 0], Walk::Type(0)),
        (&[END, TYPE, 1, 1], Walk::Type(0)),
    ];
    for (turn, (options, expected)) in cases.into_iter().enumerate() {
        list.lines.comment(&format!("D{}", turn + 1));
        assert_eq!(list.request(options), expected);
    }
}

fn small_strings(list: &mut DhcpList) {
    let mut strings = vec![vec![]];
    for _ in 0..=3 {
        for string in &strings {
            list.options(string);
        }
        strings = strings
            .iter()
            .flat_map(|string| SMALL_ALPHABET.map(|byte| [&string[..], &[byte]].concat()))
            .collect();
    }
}

/// The option, with a value of 53s.
fn option(code: u8, len: u8) -> Vec<u8> {
    let mut option = vec![code, len];
    option.resize(2 + len as usize, TYPE);
    option
}

fn value_ends(list: &mut DhcpList) {
    for len in OPTION_LENGTHS {
        for code in CODES {
            let whole = option(code, len);
            list.options(&[&whole[..], &[TYPE]].concat());
            list.options(&whole);
            if len > 0 {
                list.options(&whole[..whole.len() - 1]);
            }
        }
    }
}

fn stepped_over(list: &mut DhcpList) {
    for len in OPTION_LENGTHS {
        for code in CODES.into_iter().filter(|code| *code != TYPE) {
            list.options(&[&option(code, len)[..], &[TYPE, 1, 3]].concat());
        }
    }
}

fn pads(list: &mut DhcpList) {
    for count in [1, 2, 3, 7, 60] {
        let pads = &vec![PAD; count][..];
        let name = &[12, 1, TYPE][..];
        list.options(&[pads, &[TYPE, 1, 1, END]].concat());
        list.options(&[name, pads, &[TYPE, 1, 3], pads].concat());
        list.options(&[&[TYPE, 1, 3], pads, &[END]].concat());
        list.options(&[name, pads].concat());
        list.options(&[pads, &[END, TYPE, 1, 1]].concat());
        list.options(&[pads, &[TYPE]].concat());
        list.options(&[pads, &[TYPE, 1]].concat());
        list.options(&[&[TYPE, 0], pads, &[TYPE, 1, 1]].concat());
    }
}

fn empty_types(list: &mut DhcpList) {
    let strings: [&[u8]; 14] = [
        &[TYPE, 0, TYPE, 0, TYPE, 1, 1],
        &[TYPE, 0, TYPE, 0, TYPE, 0, TYPE, 0, TYPE, 0, TYPE, 1, 3],
        &[TYPE, 0, TYPE, 0, TYPE, 0],
        &[TYPE, 0, TYPE, 0, TYPE],
        &[TYPE, 0, TYPE, 1],
        &[TYPE, 0, PAD, PAD, TYPE, 255],
        &[TYPE, 0, END, TYPE, 1, 1],
        &[TYPE, 0, 12, 1, TYPE, TYPE, 1, 1],
        &[TYPE, 0, 12, 2, TYPE, 1],
        &[TYPE, 0, 12, 2, TYPE, 1, TYPE, 2],
        &[TYPE, 0, 1, TYPE, 1, 3],
        &[TYPE, 0, 3, 1, TYPE, 1, 3],
        &[12, 0, TYPE, 0, 54, 0, TYPE, 9, 3],
        &[TYPE, 0, 254, 0, TYPE, 1, 255],
    ];
    for string in strings {
        list.options(string);
    }
}

fn overrunning_types(list: &mut DhcpList) {
    for len in [2, 3, 4, 5, 100, 254, 255] {
        for message_type in [0, 1, 3, TYPE, END] {
            list.options(&[TYPE, len, message_type]);
        }
        list.options(&[TYPE, len, 3, END]);
    }
}

fn hidden_types(list: &mut DhcpList) {
    let strings: [&[u8]; 12] = [
        &[12, 3, TYPE, 1, 1],
        &[12, 3, TYPE, 1, 1, END],
        &[12, 3, TYPE, 1, 1, TYPE, 1, 3],
        &[12, 2, TYPE, 1, 1],
        &[12, 2, TYPE, 1, TYPE, 1, 3],
        &[12, 4, TYPE, 1, 1, END, TYPE, 1, 3],
        &[61, 7, 1, TYPE, 1, 1, TYPE, 1, 1, TYPE, 1, 3],
        &[55, 4, TYPE, 1, 3, 6, TYPE, 1, 1, END],
        &[43, 6, TYPE, 1, 1, END, 0, 0, TYPE, 1, 3],
        &[52, 1, 3, TYPE, 1, 1],
        &[12, 255, TYPE, 1, 1, TYPE, 1, 3],
        &[254, 3, TYPE, 0, TYPE, TYPE, 1],
    ];
    for string in strings {
        list.options(string);
    }
}

fn first_decides(list: &mut DhcpList) {
    let strings: [&[u8]; 26] = [
        &[TYPE, 1, 1, TYPE, 1, 3],
        &[TYPE, 1, 3, TYPE, 1, 1],
        &[TYPE, 1, 0, TYPE, 1, 1],
        &[TYPE, 1, 2, TYPE, 1, 1],
        &[TYPE, 2, 1, 3, TYPE, 1, 3],
        &[TYPE, 1, 3, PAD, TYPE, 1, 1, END],
        &[TYPE, 1, 255, TYPE, 1, 1],
        &[TYPE, 1, 1, TYPE, 1],
        &[TYPE, 1, 1, TYPE],
        &[END, END, TYPE, 1, 1],
        &[PAD, END, TYPE, 1, 3],
        &[12, 1, 0, END, TYPE, 1, 1],
        &[END, PAD, PAD, TYPE, 1, 1],
        &[END, TYPE, 1],
        &[END, 0, TYPE, 1],
        &[END, 0, TYPE, 1, 1],
        &[END, 1, 7, TYPE, 1, 3],
        &[12, 1, TYPE, END, 2, 0, 0, TYPE, 1, 3],
        &[12, 0, END, TYPE],
        &[12, 1, END, TYPE, 1, 1],
        &[PAD, PAD, TYPE],
        &[12, 1, 7, TYPE],
        &[1, 4, 255, 255, 255, 0, TYPE],
        &[1, 4, 255, 255, 255, 0, TYPE, 1],
        &[1, 4, 255, 255, 255, TYPE],
        &[12, 0, 54, 0, TYPE, 4],
    ];
    for string in strings {
        list.options(string);
    }
}

fn message_types(list: &mut DhcpList) {
    for message_type in MESSAGE_TYPES {
        list.request(&[TYPE, 1, message_type, END]);
        list.options(&[TYPE, 1, message_type]);
    }
}

fn around_the_start(list: &mut DhcpList) {
    for len in [0, 1, 2, 239, 240, 241, 242, 243, 244] {
        for seed in SEEDS_IN_TURN.into_iter().chain([TYPE_AT_240, TYPE_AT_241]) {
            list.walk(seed, len, &[]);
        }
    }
}

/// Most of these read otherwise from 239 or from 241 on than from 240 on.
fn starts(list: &mut DhcpList) {
    let written_at: [(usize, &[u8]); 22] = [
        (0, &[TYPE]),
        (0, &[TYPE, 1]),
        (0, &[TYPE, 1, 1]),
        (236, &[TYPE, 1, 1]),
        (237, &[TYPE, 1, 1]),
        (237, &[TYPE, 1, 1, TYPE, 1, 3]),
        (237, &[TYPE, 1, 1, END, TYPE, 1, 3]),
        (237, &[TYPE, 1, 1, 54, TYPE, 1, 3]),
        (238, &[TYPE, 1, 1]),
        (238, &[TYPE, 1, 1, 1, TYPE, TYPE, 1, 3]),
        (239, &[TYPE, 1, 1]),
        (239, &[TYPE, 1, 1, TYPE, TYPE, 1, 3]),
        (239, &[TYPE, TYPE, 1, 3]),
        (239, &[TYPE, END, TYPE, 1, 1]),
        (239, &[END, TYPE, 1, 3]),
        (239, &[PAD, TYPE, 1, 3]),
        (239, &[12, TYPE, 1, 1]),
        (239, &[TYPE, TYPE]),
        (239, &[TYPE, TYPE, 1]),
        (240, &[PAD, TYPE, 1, 1]),
        (240, &[54, TYPE, 1, 1]),
        (240, &[TYPE, TYPE, 1, 3]),
    ];
    for (at, written) in written_at {
        list.walk(SEEDS_IN_TURN[0], at, written);
        list.walk(SEEDS_IN_TURN[3], at, written);
    }
}

/// Pads, 53s, ENDs and small lengths come up often, and between them any byte at all.
pub fn option_bytes(draws: &mut Draws, len: usize) -> Vec<u8> {
    let mut option_byte = || {
        let (small, any) = (draws.below(5) as u8, draws.byte());
        draws.one_of(&[PAD, PAD, TYPE, END, small, small, small, small, any])
    };
    (0..len).map(|_| option_byte()).collect()
}

fn drawn_options(list: &mut DhcpList) {
    for len in 0..=40 {
        for _ in 0..2 {
            let options = option_bytes(&mut list.draws, len);
            list.options(&options);
        }
    }
}

/// Options that are stepped over, `len` bytes or a few more.
pub fn passed_options(draws: &mut Draws, len: usize) -> Vec<u8> {
    let mut options = vec![];
    while options.len() < len {
        let value_len = draws.below(5);
        match draws.one_of(&[PAD, 1, 12, 52, TYPE, 54, 254]) {
            PAD => options.push(PAD),
            TYPE => options.extend([TYPE, 0]),
            code => {
                options.extend([code, value_len as u8]);
                options.extend(option_bytes(draws, value_len));
            }
        }
    }
    options
}

fn drawn_ends(list: &mut DhcpList) {
    for len in 0..=40 {
        for _ in 0..2 {
            let mut options = passed_options(&mut list.draws, len);
            let (some, any) = (1 + list.draws.below(255) as u8, list.draws.byte());
            options.extend(list.draws.one_of(&[
                &[][..],
                &[END, 0, TYPE, 1, 1],
                &[TYPE],
                &[TYPE, some],
                &[TYPE, some, any],
                &[12, some, TYPE, 1],
            ]));
            list.options(&options);
        }
    }
}

fn drawn_behind_long(list: &mut DhcpList) {
    for lengths in [
        &[255][..],
        &[254],
        &[250],
        &[255, 255],
        &[254, 255],
        &[128, 200, 255],
    ] {
        let mut options = vec![];
        for len in lengths {
            options.extend([list.draws.one_of(&[1, 12, 52, 54, 254]), *len]);
            options.extend(option_bytes(&mut list.draws, *len as usize));
        }
        let tail = 1 + list.draws.below(40);
        options.extend(option_bytes(&mut list.draws, tail));
        list.options(&options);
    }
}

/// By rule an option's length is 17 more than its code. The written 53 stands where the walk comes
/// to, if there is such a place among those tried.
fn ruled_options(list: &mut DhcpList) {
    let found = &[TYPE, 1, 3][..];
    for _ in 0..15 {
        let seed = list.draws.rule_seed();
        let first = 300 + list.draws.below(900);
        let is_reached = |at: &usize| {
            ask_dhcp::walk(&[&ruled_bytes(seed, *at)[..], found].concat()) == Walk::Type(3)
        };
        let at = (first..first + 270).find(is_reached).unwrap_or(first);
        for end in 1..=found.len() {
            list.walk(seed, at, &found[..end]);
        }
    }
}

fn far_places(list: &mut DhcpList) {
    for at in [1_472, 65_000] {
        for end in [&[TYPE][..], &[TYPE, 1], &[TYPE, 1, 3]] {
            list.walk(SEEDS_IN_TURN[0], at, end);
        }
    }
}

/// The file's messages, each with the comment that stands on the line before it.
fn client_messages(list: &mut DhcpList, file: &str) {
    let mut words = "";
    for line in file.lines() {
        if let Some(comment) = line.strip_prefix("# ") {
            words = comment;
        } else if !line.is_empty() && !line.starts_with('#') {
            let message = bytes_of(line);
            assert!(message.len() > OPTIONS_AT);
            list.group(&format!("0a: {words}"), |list| {
                list.cut_at_every_place(&message)
            });
        }
    }
}

fn replies(list: &mut DhcpList) {
    let lines = &mut list.lines;
    lines.comment(
        "0b: under verdict 01 the bytes are the Rust's. It knows no buffer: that the room is",
    );
    lines.comment(
        "too small, 05, is document 01's rule; the bytes needed are those the Rust built.",
    );
    let offer_rooms = [Full, OneShort, Empty, OneMore, Larger, Most];
    list.reply(0x0102_0304, &GUEST_MAC, 2, &offer_rooms);
    let acknowledgement_rooms = [Full, OneShort, Empty, Shorter, Shorter, Shorter];
    list.reply(0x0102_0304, &GUEST_MAC, 5, &acknowledgement_rooms);
    for xid in [0, 1, 0xffff_ffff] {
        for message_type in [2, 5] {
            list.reply(xid, &GUEST_MAC, message_type, &[Full]);
        }
    }
    for mac in [[0; 6], [0xff; 6]] {
        let xid = list.draws.word();
        list.reply(xid, &mac, 5, &[Full, OneShort]);
    }
    for message_type in [0, 1, 53, 255] {
        let (xid, mac) = (list.draws.word(), list.draws.mac());
        list.reply(xid, &mac, message_type, &[Larger]);
    }
    for turn in 0..10 {
        let (xid, mac) = (list.draws.word(), list.draws.mac());
        let message_type = list.draws.byte();
        let rooms = [&[Full][..], &[Shorter, Larger], &[Shorter]];
        list.reply(xid, &mac, message_type, rooms[turn % 3]);
    }
}
