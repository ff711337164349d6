//! Lists of DHCP options that take the reader deep, in frames that are right but for the list. The reader nests calls for
//! each item, so that pads, of one byte each, go deepest.

use crate::guest_frames::*;
use crate::mended::{summed_anew, with_header_options};

/// A message has at most 1,472 bytes, of which these are the list's.
pub const LONGEST: usize = 1_472 - OPTIONS_AT;
/// What a type and END leave for pads in the longest list.
pub const MOST_PADS: usize = LONGEST - 4;
/// The longest list that an IPv4 packet has room for, with a header of 60 bytes.
const LONGEST_IN_A_PACKET: usize = 65_535 - 60 - 8 - OPTIONS_AT;

pub struct List {
    pub words: String,
    pub bytes: Vec<u8>,
}

fn list(words: String, parts: &[&[u8]]) -> List {
    let bytes = parts.concat();
    List { words, bytes }
}

/// Every message type in turn.
fn type_at_turn(turn: usize) -> [u8; 3] {
    [TYPE, 1, 1 + (turn % 8) as u8]
}

/// What may stand behind the items, and what it is called.
fn endings(message_type: [u8; 3]) -> [(&'static str, Vec<u8>); 4] {
    [
        ("nothing", vec![]),
        ("END", vec![END]),
        ("a type", message_type.to_vec()),
        ("a type and END", [&message_type[..], &[END]].concat()),
    ]
}

fn fits(list: &List) -> bool {
    list.bytes.len() <= LONGEST
}

/// All of them.
pub fn lists() -> impl Iterator<Item = List> {
    pads()
        .chain(pads_around_a_type())
        .chain(types())
        .chain(items())
        .chain(items_up_to_the_end())
        .chain(too_long())
}

/// Pads of every number that fits, with and without a type and END; and with zeros behind END up to the longest list, all
/// of them or all but the last.
fn pads() -> impl Iterator<Item = List> {
    let of_number = |pads: usize| {
        let (zeros, message_type) = (vec![PAD; pads], type_at_turn(pads));
        let type_first = list(
            format!("a type, {pads} pads, END"),
            &[&message_type, &zeros, &[END]],
        );
        let behind = vec![0; MOST_PADS.saturating_sub(pads)];
        let filled = list(
            format!("{pads} pads, a type, END, {} zeros", behind.len()),
            &[&zeros, &message_type, &[END], &behind],
        );
        let not_zero = list(
            format!("{pads} pads, a type, END, zeros, the last one 1"),
            &[
                &zeros,
                &message_type,
                &[END],
                &behind[1.min(behind.len())..],
                &[1],
            ],
        );
        endings(message_type)
            .into_iter()
            .map(move |(behind, ending)| {
                list(format!("{pads} pads and {behind}"), &[&zeros, &ending])
            })
            .chain([type_first, filled, not_zero])
    };
    (0..=LONGEST).flat_map(of_number).filter(fits)
}

/// A type at every place among the most pads that leave room for it.
fn pads_around_a_type() -> impl Iterator<Item = List> {
    (0..=MOST_PADS).map(|before| {
        let (first, last) = (vec![PAD; before], vec![PAD; MOST_PADS - before]);
        list(
            format!("{before} pads, a type, {} pads, END", last.len()),
            &[&first, &type_at_turn(before), &last, &[END]],
        )
    })
}

/// Every value of the type's byte, behind the most pads and before them, and both before and behind.
fn types() -> impl Iterator<Item = List> {
    let pads = [PAD; MOST_PADS];
    (0..=255).flat_map(move |value| {
        let message_type = [TYPE, 1, value];
        let words = format!("{MOST_PADS} pads, type {value}, END");
        let behind = list(words, &[&pads, &message_type, &[END]]);
        let words = format!("type {value}, {MOST_PADS} pads, END");
        let before = list(words, &[&message_type, &pads, &[END]]);
        let words = format!("type {value}, {} pads, type {value}, END", MOST_PADS - 3);
        let twice = [&message_type, &pads[3..], &message_type, &[END]];
        [behind, before, list(words, &twice)]
    })
}

/// An option of any code but the three that mean something. Its value is full of the type's code.
fn option(value_len: usize) -> Vec<u8> {
    let code = match value_len as u8 {
        PAD | TYPE | END => 12,
        code => code,
    };
    [&[code, value_len as u8][..], &vec![TYPE; value_len]].concat()
}

/// Options with a value of every length, of every number that fits.
fn items() -> impl Iterator<Item = List> {
    let of_length = |value_len: usize| {
        let option = option(value_len);
        let of_number = move |number: usize| {
            let items = option.repeat(number);
            endings(type_at_turn(number))
                .into_iter()
                .map(move |(behind, ending)| {
                    let words = format!("{number} options of {value_len} bytes and {behind}");
                    list(words, &[&items, &ending])
                })
        };
        (1..=LONGEST / (2 + value_len)).flat_map(of_number)
    };
    (0..=255).flat_map(of_length).filter(fits)
}

/// As many options as fit, and pads, a type and END up to the last byte of the longest list; and the same many with one
/// more, which is cut by the end.
fn items_up_to_the_end() -> impl Iterator<Item = List> {
    (0..=255).flat_map(|value_len| {
        let option = option(value_len);
        let items = option.repeat(MOST_PADS / option.len());
        let pads = vec![PAD; MOST_PADS - items.len()];
        let words = format!("options of {value_len} bytes, pads, a type, END, up to the last byte");
        let filled = list(words, &[&items, &pads, &type_at_turn(value_len), &[END]]);
        let mut cut = list(
            format!("options of {value_len} bytes up to the last byte, the last one cut"),
            &[&option.repeat(1 + LONGEST / option.len())],
        );
        cut.bytes.truncate(LONGEST);
        [filled, cut]
    })
}

/// Longer lists than a message may have: they are refused before they are walked. First those that have no END, so that
/// a reader that walks them all the same goes deep before it answers.
fn too_long() -> impl Iterator<Item = List> {
    let numbers = || {
        let few = LONGEST + 1..=LONGEST + 64;
        let many = [1_472, 1_600, 1_800, 2_000, 2_048, 2_100, 4_096, 8_192];
        few.chain(many).chain([16_384, 32_768, LONGEST_IN_A_PACKET])
    };
    let pads = numbers().map(|pads| {
        let words = format!("{pads} pads and nothing: too long");
        list(words, &[&vec![PAD; pads]])
    });
    let options = numbers().map(|number| {
        let words = format!("{} options of 0 bytes and nothing: too long", number / 2);
        list(words, &[&option(0).repeat(number / 2)])
    });
    let with_a_type = numbers().map(|number| {
        let pads = number - 4;
        let words = format!("{pads} pads, a type, END: too long");
        list(words, &[&vec![PAD; pads], &type_at_turn(pads), &[END]])
    });
    pads.chain(options).chain(with_a_type)
}

/// What stands around a list, all of it right.
#[derive(Clone, Copy)]
pub struct Envelope {
    pub header_len: usize,
    /// Else the UDP checksum is 0, which says that there is none.
    pub summed: bool,
    pub from_client: bool,
}

pub const ENVELOPES: [Envelope; 8] = {
    let mut all = [Envelope {
        header_len: 20,
        summed: false,
        from_client: true,
    }; 8];
    let mut at = 0;
    while at < all.len() {
        all[at] = Envelope {
            header_len: [20, 60][at % 2],
            summed: at / 2 % 2 == 1,
            from_client: at < 4,
        };
        at += 1;
    }
    all
};

impl Envelope {
    pub fn words(&self) -> String {
        format!(
            "IPv4 header of {} bytes, UDP checksum {}, from {}",
            self.header_len,
            ["0", "right"][usize::from(self.summed)],
            ["port 67 to 68", "port 68 to 67"][usize::from(self.from_client)],
        )
    }

    pub fn around(&self, list: &[u8]) -> Vec<u8> {
        let mut frame = dhcp(&dhcp_message(1, list));
        if !self.from_client {
            frame[PAYLOAD_AT..PAYLOAD_AT + 4].copy_from_slice(&[0, 67, 0, 68]);
            frame[DATA_AT] = 2;
        }
        // Options of the IPv4 header, NOP each.
        let frame = with_header_options(&frame, &vec![1; self.header_len - 20]);
        match self.summed {
            true => summed_anew(frame),
            false => frame,
        }
    }
}
