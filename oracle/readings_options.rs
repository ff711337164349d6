//! Option lists of every shape, in DHCP messages that are right otherwise.

use crate::captured::sent;
use crate::grammar_01::Kind;
use crate::guest_frames::*;
use crate::mended::{dhcp_frame, shorter, summed_anew};
use crate::reading_cases::{Origin, ReadingList};

const SMALL_ALPHABET: [u8; 5] = [PAD, 1, 2, TYPE, END];
const LIST: &str = "DHCP: a list";
const ONCE: &str = "DHCP: option 53";

/// A client's message in a frame, its list as short as can be; by turns with a checksum and without.
fn framed(options: &[u8]) -> Vec<u8> {
    let frame = dhcp_frame(&dhcp_message(0x0102_0304, options));
    if options.len() % 3 == 0 {
        summed_anew(frame)
    } else {
        frame
    }
}

impl ReadingList {
    fn list_of(&mut self, message_type: u8, options: &[u8]) {
        let reading = self.taken(Origin::Options, Kind::Dhcp, &framed(options));
        assert_eq!(reading.message_type, Some(message_type));
    }

    fn no_list(&mut self, options: &[u8]) {
        self.refused(Origin::Options, LIST, &framed(options));
    }

    fn not_once(&mut self, options: &[u8]) {
        self.refused(Origin::Options, ONCE, &framed(options));
    }

    fn judged_list(&mut self, options: &[u8]) {
        self.judged(Origin::Options, &framed(options));
    }
}

/// All strings of up to `longest` bytes out of the alphabet.
fn strings(alphabet: &[u8], longest: usize) -> Vec<Vec<u8>> {
    let mut all = vec![vec![]];
    let mut last = all.clone();
    for _ in 0..longest {
        let longer = |string: &Vec<u8>| {
            let string = string.clone();
            alphabet
                .iter()
                .map(move |byte| [&string[..], &[*byte]].concat())
        };
        last = last.iter().flat_map(longer).collect();
        all.extend(last.clone());
    }
    all
}

fn all_short_lists(list: &mut ReadingList) {
    for string in strings(&SMALL_ALPHABET, 3) {
        list.judged_list(&string);
    }
}

fn behind_the_type(list: &mut ReadingList) {
    for string in [strings(&[PAD, 1, 2, END], 3), strings(&[PAD, 1, END], 4)].concat() {
        list.judged_list(&[&[TYPE, 1, 1], &string[..]].concat());
    }
    for string in strings(&SMALL_ALPHABET, 2) {
        list.judged_list(&[&[TYPE, 1, 2], &string[..], &[END]].concat());
    }
}

fn before_the_type(list: &mut ReadingList) {
    for string in [strings(&SMALL_ALPHABET, 2), strings(&[PAD, 1, TYPE], 3)].concat() {
        list.judged_list(&[&string[..], &[TYPE, 1, 3, END]].concat());
    }
    for string in strings(&[PAD, 1, TYPE], 2) {
        list.judged_list(&[&string[..], &[TYPE, 1, 5, END, PAD]].concat());
    }
}

fn ends(list: &mut ReadingList) {
    list.no_list(&[]);
    list.not_once(&[END]);
    list.not_once(&[END, 0]);
    list.not_once(&[END, 0, 0, 0, 0, 0]);
    list.not_once(&[PAD, END]);
    list.not_once(&[1, 0, END]);
    for zeros in [0, 1, 2, 3, 7, 8, 9, 56, 300, 1_228] {
        list.list_of(1, &[&[TYPE, 1, 1, END], &vec![0; zeros][..]].concat());
    }
    for zeros in [1, 2, 3, 8, 60] {
        for byte in [1, TYPE, 254, END] {
            for place in [0, zeros / 2, zeros - 1] {
                let behind = with(vec![0; zeros], place, &[byte]);
                list.no_list(&[&[TYPE, 1, 1, END], &behind[..]].concat());
            }
        }
    }
    list.no_list(&[&[TYPE, 1, 1, END], &with(vec![0; 1_228], 1_227, &[1])[..]].concat());
    list.no_list(&[END, TYPE, 1, 1]);
    list.no_list(&[END, TYPE, 1, 1, END]);
    list.no_list(&[TYPE, 1, 1, END, END]);
    list.no_list(&[TYPE, 1, 1, END, TYPE, 1, 1]);
    list.no_list(&[TYPE, 1, 1, END, TYPE, 1, 1, END]);
    list.no_list(&[TYPE, 1, 1, END, 0, TYPE, 1, 1]);
    list.no_list(&[12, 1, 9, END, TYPE, 1, 1, END]);
}

fn pads(list: &mut ReadingList) {
    for count in [1, 2, 3, 7, 60, 255, 256] {
        let pads = &vec![PAD; count][..];
        list.list_of(1, &[pads, &[TYPE, 1, 1, END]].concat());
        list.list_of(2, &[&[TYPE, 1, 2], pads, &[END]].concat());
        list.no_list(pads);
        list.no_list(&[&[TYPE, 1, 1], pads].concat());
        if count > 7 {
            continue;
        }
        list.list_of(
            3,
            &[&[12, 1, TYPE], pads, &[TYPE, 1, 3], pads, &[END], pads].concat(),
        );
        list.no_list(&[pads, &[TYPE, 1, 1]].concat());
        list.not_once(&[pads, &[END]].concat());
        list.no_list(&[pads, &[TYPE]].concat());
    }
    let between = [
        12, 1, 7, PAD, 54, 4, 10, 0, 2, 2, PAD, PAD, TYPE, 1, 5, PAD, 51, 1, 0, PAD, END,
    ];
    list.list_of(5, &between);
}

/// A code that is the last byte, values that run past the data, and ones that end it.
fn unfinished(list: &mut ReadingList) {
    for code in [1, 12, TYPE, 54, 254] {
        list.no_list(&[code]);
        list.no_list(&[TYPE, 1, 1, code]);
        list.no_list(&[TYPE, 1, 1, PAD, code]);
        list.no_list(&[code, 0]);
        list.no_list(&[TYPE, 1, 1, code, 0]);
        let lengths: &[u8] = if [12, TYPE].contains(&code) {
            &[1, 2, 4, 255]
        } else {
            &[1, 4]
        };
        for len in lengths.iter().copied() {
            let value = vec![0x41; len as usize];
            let whole = [&[TYPE, 1, 1, code, len], &value[..]].concat();
            list.no_list(&whole);
            list.no_list(&whole[..whole.len() - 1]);
            list.no_list(&whole[..5]);
            // An END that the value swallows.
            let swallowed = [&whole[..whole.len() - 1], &[END]].concat();
            list.no_list(&swallowed);
            if code == TYPE {
                list.not_once(&[&whole[..], &[END]].concat());
            } else {
                list.list_of(1, &[&whole[..], &[END]].concat());
                list.list_of(1, &[&whole[3..], &[TYPE, 1, 1, END]].concat());
            }
        }
    }
}

fn types(list: &mut ReadingList) {
    for message_type in 1..=8 {
        list.list_of(message_type, &[TYPE, 1, message_type, END]);
        list.list_of(
            message_type,
            &[12, 2, TYPE, 1, TYPE, 1, message_type, END, 0],
        );
    }
    for message_type in [0, 9, 10, 16, TYPE, 127, 128, 129, 131, 254, END] {
        list.not_once(&[TYPE, 1, message_type, END]);
        list.not_once(&[12, 0, TYPE, 1, message_type, END]);
    }
    list.not_once(&[TYPE, 0, END]);
    list.not_once(&[TYPE, 2, 1, 1, END]);
    list.not_once(&[TYPE, 2, 1, 0, END]);
    list.not_once(&[TYPE, 2, 0, 1, END]);
    list.not_once(&[TYPE, 2, 3, END, END]);
    list.not_once(&[&[TYPE, 255][..], &[1; 255], &[END]].concat());
    list.not_once(&[TYPE, 0, TYPE, 1, 1, END]);
    list.not_once(&[TYPE, 1, 1, TYPE, 0, END]);
    list.not_once(&[TYPE, 1, 1, TYPE, 1, 1, END]);
    list.not_once(&[TYPE, 1, 1, TYPE, 1, 3, END]);
    list.not_once(&[TYPE, 1, 3, 12, 1, 0, TYPE, 1, 1, END]);
    list.not_once(&[TYPE, 1, 1, TYPE, 1, 9, END]);
    list.not_once(&[TYPE, 1, 0, TYPE, 1, 1, END]);
    list.not_once(&[TYPE, 1, 1, TYPE, 2, 1, 1, END]);
    list.not_once(&[12, 3, TYPE, 1, 1, END]);
    list.not_once(&[52, 1, 53, END]);
    list.not_once(&[54, 1, 1, END]);
    for code in [1, 54, 254] {
        list.list_of(1, &[code, 3, TYPE, 1, 3, TYPE, 1, 1, END]);
        list.list_of(1, &[TYPE, 1, 1, code, 3, TYPE, 1, 3, END]);
        list.list_of(1, &[TYPE, 1, 1, code, 1, END, END]);
        list.list_of(1, &[code, 2, END, END, TYPE, 1, 1, END, 0]);
        list.list_of(1, &[TYPE, 1, 1, code, 0, code, 0, END]);
    }
    // The same option twice is no matter, if it is not 53.
    list.list_of(3, &[12, 1, 1, 12, 1, 2, TYPE, 1, 3, 12, 0, END]);
}

/// Every code once, before the type and as an option of 0 bytes and of one.
fn codes(list: &mut ReadingList) {
    let all: Vec<u8> = (1..=254).filter(|code| *code != TYPE).collect();
    let empty: Vec<u8> = all.iter().flat_map(|code| [*code, 0]).collect();
    list.list_of(1, &[&[TYPE, 1, 1], &empty[..], &[END]].concat());
    let single: Vec<u8> = all.iter().flat_map(|code| [*code, 1, END]).collect();
    list.list_of(2, &[&single[..], &[TYPE, 1, 2, END]].concat());
    for code in [1, 2, 51, 52, 54, 55, 127, 128, 253, 254] {
        list.list_of(1, &[code, 0, TYPE, 1, 1, END]);
        list.list_of(1, &[TYPE, 1, 1, code, 1, code, END]);
    }
}

/// Lists that fill 1,472 bytes, with few long items or with many short ones: a reader that goes one
/// call deeper for each item goes deepest there.
fn long_lists(list: &mut ReadingList) {
    let option = |code: u8, len: u8| [&[code, len], &vec![code; len as usize][..]].concat();
    for len in [254, 255] {
        list.list_of(1, &[&option(12, len)[..], &[TYPE, 1, 1, END]].concat());
        list.list_of(1, &[&[TYPE, 1, 1], &option(12, len)[..], &[END]].concat());
        let cut = [&[TYPE, 1, 1], &option(12, len)[..]].concat();
        list.no_list(&cut[..cut.len() - 1]);
    }
    // 4 options of 257 bytes, one of 200: 1,228 bytes.
    let four: Vec<u8> = (1..=4).flat_map(|code| option(code, 255)).collect();
    let filled = [&four[..], &option(5, 198), &[TYPE, 1, 4, END]].concat();
    assert_eq!(filled.len(), 1_232);
    list.list_of(4, &filled);
    let overfull = [&four[..], &option(5, 199), &[TYPE, 1, 4, END]].concat();
    list.refused(Origin::Options, "240 to 1,472", &framed(&overfull));
    let no_end = [&four[..], &option(5, 199), &[TYPE, 1, 4]].concat();
    list.no_list(&no_end);
    let past = [&four[..], &[5, 202], &[5; 198], &[TYPE, 1, 4, END]].concat();
    list.no_list(&past[..1_232]);
    let zeros_behind = [&four[..], &[TYPE, 1, 4, END]].concat();
    list.list_of(4, &of_len(zeros_behind.clone(), 1_232));
    let last = with(of_len(zeros_behind, 1_232), 1_231, &[END]);
    list.no_list(&last);
    // Pads, the type last.
    let pads = [&vec![PAD; 1_228][..], &[TYPE, 1, 8, END]].concat();
    list.list_of(8, &pads);
    list.no_list(&[PAD; 1_232]);
    let types: Vec<u8> = [TYPE, 1, 1]
        .into_iter()
        .cycle()
        .take(1_230)
        .chain([END, 0])
        .collect();
    list.not_once(&types);
    let empty_options: Vec<u8> = [200, 0].into_iter().cycle().take(1_228).collect();
    list.list_of(7, &[&empty_options[..], &[TYPE, 1, 7, END]].concat());
}

/// Document 01's own strings behind the cookie.
fn document_01s_strings(list: &mut ReadingList) {
    list.list_of(1, &[TYPE, 1, 1, END]);
    list.no_list(&[TYPE, 1]);
    list.no_list(&[TYPE]);
    list.no_list(&[TYPE, 0, TYPE, 1, 3]);
    list.no_list(&[PAD, PAD, TYPE, 5, 1]);
    list.no_list(&[TYPE, 0]);
    list.no_list(&[END, TYPE, 1, 1]);
}

/// A real client's list, cut at every place; lengths and sums are made right.
fn cut_lists(list: &mut ReadingList) {
    let frame = sent("udhcpc's REQUEST: no settings");
    for len in DATA_AT + 238..frame.len() {
        list.judged(Origin::Options, &shorter(&frame, len));
    }
}

/// Options and pads with a type among them, mostly, and an end that is mostly right.
fn drawn_lists(list: &mut ReadingList) {
    for turn in 0..50 {
        let count = list.draws.below(8);
        let mut options = vec![];
        let type_at = list.draws.below(count + 1);
        for place in 0..=count {
            if place == type_at && turn % 5 != 0 {
                let value = list.drawn(|draws| 1 + draws.below(8) as u8);
                options.extend([TYPE, 1, value]);
            }
            let code = list.drawn(|draws| {
                let any = draws.byte();
                draws.one_of(&[PAD, PAD, 1, 12, 55, 254, any])
            });
            if code == PAD || code == END {
                options.push(PAD);
                continue;
            }
            let len = list.drawn(|draws| {
                let any = draws.below(20);
                draws.one_of(&[0, 1, 1, 2, 4, any])
            });
            options.extend([code, len as u8]);
            options.extend(list.drawn(|draws| draws.bytes(len)));
        }
        match turn % 4 {
            0 => options.push(END),
            1 => options.extend([END, 0, 0]),
            2 => options.extend(vec![0; 3].into_iter().chain([END])),
            _ => options
                .extend(list.drawn(|draws| draws.one_of(&[&[END][..], &[], &[END, 1], &[12]]))),
        }
        list.judged_list(&options);
    }
}

pub fn list(list: &mut ReadingList) {
    let groups: [(&str, fn(&mut ReadingList)); 12] = [
        (
            "document 01's strings behind the cookie",
            document_01s_strings,
        ),
        (
            "all lists of 0 to 3 bytes out of 0, 1, 2, 53, 255",
            all_short_lists,
        ),
        (
            "53 1 1 and all strings of 0 to 3 bytes out of 0, 1, 2, 255, to 4 out of 0, 1, 255; and others",
            behind_the_type,
        ),
        (
            "all strings of 0 to 2 bytes, to 3 out of 0, 1, 53, before 53 1 3 255; and others",
            before_the_type,
        ),
        ("END and what stands behind it", ends),
        ("pads before, between and behind", pads),
        (
            "a code last, values past the data and to its end",
            unfinished,
        ),
        (
            "option 53: values, lengths, twice, not at all, in another's value",
            types,
        ),
        ("codes", codes),
        ("long lists", long_lists),
        ("a client's list cut at every place", cut_lists),
        ("drawn lists", drawn_lists),
    ];
    for (words, add_lists) in groups {
        list.comment(words);
        add_lists(list);
    }
}
