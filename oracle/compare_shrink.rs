//! A call on which the two sides differ, made as small and as plain as can be.

use std::time::{Duration, Instant};

use crate::compare_call::{Difference, Input, Sides};
use crate::draws::GUEST_MAC;
use crate::gateway_cases::{FRESH, USUAL_ROOM};
use crate::guest_frames::{BODY_AT, PAYLOAD_AT};
use crate::lines::hex;
use crate::networks::{HERE, NUMBER};

const LONGEST: Duration = Duration::from_secs(20);
/// What `gwone` reads.
const MOST_READ: usize = 2_048;

struct Shrinking<'a> {
    sides: &'a mut Sides,
    best: Input,
    difference: Difference,
    /// Every call is made with this id, where there is one; else with the id that comes next.
    id: Option<u16>,
    until: Instant,
}

impl Shrinking<'_> {
    /// Takes the input if the two still differ on it.
    fn try_input(&mut self, input: Input) -> bool {
        if Instant::now() > self.until {
            return false;
        }
        if let Some(id) = self.id {
            self.sides.rust.ids.bring_to(id);
        }
        let Err(difference) = self.sides.compare(&input) else {
            return false;
        };
        (self.best, self.difference) = (input, difference);
        true
    }

    fn try_change(&mut self, change: impl FnOnce(&mut Input)) -> bool {
        let mut input = self.best.clone();
        change(&mut input);
        self.try_input(input)
    }

    /// Cuts pieces out, from the end on and larger ones first, until none can go.
    fn cut_pieces(&mut self) {
        let mut size = self.best.bytes.len();
        while size > 0 {
            let mut end = self.best.bytes.len();
            while end >= size && size > 0 {
                let start = end - size;
                self.try_change(|input| drop(input.bytes.drain(start..end)));
                end = start.min(self.best.bytes.len());
            }
            size /= 2;
        }
    }

    fn make_zero(&mut self) {
        let mut size = self.best.bytes.len();
        while size > 0 {
            for start in (0..self.best.bytes.len()).step_by(size) {
                let end = (start + size).min(self.best.bytes.len());
                if self.best.bytes[start..end].iter().any(|byte| *byte != 0) {
                    self.try_change(|input| input.bytes[start..end].fill(0));
                }
            }
            size /= 2;
        }
    }

    /// Takes the IPv4 options out, where that is what is compared.
    fn plain_header(&mut self) {
        let nibble = self.best.bytes.get(BODY_AT).map_or(0, |byte| byte % 16);
        let payload_at = BODY_AT + 4 * usize::from(nibble);
        if self.best.builder.is_none()
            && (PAYLOAD_AT + 1..=self.best.bytes.len()).contains(&payload_at)
        {
            self.try_change(|input| {
                input.bytes[BODY_AT] = 0x45;
                input.bytes.drain(PAYLOAD_AT..payload_at);
            });
        }
    }

    fn shrink_bytes(&mut self) {
        loop {
            let before = self.best.bytes.clone();
            self.plain_header();
            // First, since to try every byte of a long frame that cannot be cut takes all the time.
            self.make_zero();
            self.cut_pieces();
            if before == self.best.bytes || Instant::now() > self.until {
                return;
            }
        }
    }
}

/// What is printed of the first difference.
pub fn report(sides: &mut Sides, input: Input, difference: Difference) -> String {
    let first_len = input.bytes.len();
    let until = Instant::now() + LONGEST;
    let mut shrinking = Shrinking {
        sides,
        best: input,
        difference,
        id: None,
        until,
    };
    // First towards what `gwone` does: its record, its room.
    shrinking.try_change(|input| input.mac = GUEST_MAC);
    shrinking.try_change(|input| input.xid = FRESH.xid);
    shrinking.try_change(|input| input.room = USUAL_ROOM);
    shrinking.shrink_bytes();
    let mut shows_with_gwone = false;
    if shrinking.best.builder.is_none() {
        shrinking.id = Some(FRESH.id);
        let best = shrinking.best.clone();
        shrinking.try_change(|input| input.room = USUAL_ROOM);
        shows_with_gwone = shrinking.try_input(Input {
            mac: FRESH.mac,
            xid: FRESH.xid,
            room: USUAL_ROOM,
            ..best
        }) && shrinking.best.bytes.len() <= MOST_READ;
    }
    let (best, difference) = (shrinking.best, shrinking.difference);
    let mut text = format!(
        "The two sides differ in: {}\nexpected: {}\n    ({})\nours:     {}\n",
        difference.what, difference.expected, difference.whose, difference.ours
    );
    text += &call_text(&best, Some(difference.id));
    text += &format!("(shrunk from {first_len} bytes)\n");
    if NUMBER != 0 {
        text += &format!("(on {HERE:?})\n");
    } else if best.builder.is_none() && !shows_with_gwone {
        text += &format!(
            "(gwone has mac {}, id 1, xid 0, a room of {USUAL_ROOM} and reads at most {MOST_READ} bytes: with these it does not show)\n",
            hex(&GUEST_MAC)
        );
    }
    text
}

/// The call: a builder's with its payload, or the line for the shell that hands the frame to `gwone`;
/// on another network than `gwone`'s that line only prints the frame.
pub fn call_text(input: &Input, id: Option<u16>) -> String {
    let id = id.map_or(String::new(), |id| format!(" id {id},"));
    let mut text = format!(
        "record before: mac {},{id} xid {:#010x}; room {}; {} bytes\n",
        hex(&input.mac),
        input.xid,
        input.room,
        input.bytes.len()
    );
    let (builder, bytes) = (&input.builder, &input.bytes[..]);
    let Some(builder) = builder else {
        let to_gwone = if NUMBER == 0 { " | ./gwone" } else { "" };
        return text + &format!("{}{to_gwone}\n", printed(bytes));
    };
    text += &format!("call: {builder:?}\n");
    text + &match bytes {
        [one, same @ ..] if same.iter().all(|byte| byte == one) => {
            format!("the payload: {} bytes of {one:02x}\n", bytes.len())
        }
        _ => format!("the payload: {}\n", printed(bytes)),
    }
}

/// The command that prints these bytes; many zeros at their end are not written out.
fn printed(bytes: &[u8]) -> String {
    let zeros = bytes.iter().rev().take_while(|byte| **byte == 0).count();
    let zeros = if zeros < 64 { 0 } else { zeros };
    let written = bytes[..bytes.len() - zeros].iter();
    let written: String = written.map(|byte| format!("\\x{byte:02x}")).collect();
    match zeros {
        0 => format!("printf '{written}'"),
        _ => format!("{{ printf '{written}'; head -c {zeros} /dev/zero; }}"),
    }
}
