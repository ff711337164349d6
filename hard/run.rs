//! Millions of calls, each checked: the gateway, for records of any network, with rooms around what its reply needs, the
//! reader, the builders and the checksum, on the same hostile frames; and records made of good and bad networks.

use std::fmt::Debug;
use std::sync::atomic::{AtomicPtr, Ordering};

use crate::calls::{self, Answer, NOW, Plan};
use crate::cases::{Call, MOST_ROOM};
use crate::compare_builders::Builder;
use crate::compare_tally::grouped;
use crate::draws::Draws;
use crate::gateway_cases::USUAL_ROOM;
use crate::lending::{Guarded, Lender};
use crate::library::*;
use crate::lines::hex;
use crate::signals::{self, Told};
use crate::stream::Stream;

const FRAMES_TO_A_BUILDER: u64 = 4;
const FRAMES_TO_A_MAKING: u64 = 2;
/// Of the replied-to frames one in so many meets a room of tens of thousands of bytes.
const TURNS_TO_A_LARGE_ROOM: usize = 64;
/// A guest is another one behind so many frames.
const FRAMES_OF_A_GUEST: usize = 50;
const SHOWN: usize = 400;

#[derive(Default)]
struct Tally {
    frames: u64,
    sends: [u64; 8],
    /// By kind; the last is outside.
    reads: [u64; 9],
    builds: [u64; 8],
    checksums: u64,
    made: u64,
    not_made: u64,
}

impl Tally {
    fn calls(&self) -> u64 {
        let all = [
            &self.sends[..],
            &self.reads,
            &self.builds,
            &[self.checksums, self.made, self.not_made],
        ];
        all.into_iter().flatten().sum()
    }

    fn print(&self, places: usize, seed: u64) {
        let list = |counts: &[u64]| counts.iter().map(|n| grouped(*n)).collect::<Vec<_>>();
        println!(
            "{} frames from seed {seed:#x}, each call at {places} place(s) in memory",
            grouped(self.frames)
        );
        println!("send, verdicts 0 to 7: {}", list(&self.sends).join(" / "));
        println!(
            "read, kinds 1 to 6, and outside: {} / {}",
            list(&self.reads[1..7]).join(" / "),
            grouped(self.reads[8])
        );
        let builds = [1, 5, 6].map(|number| self.builds[number]);
        println!("builders, 1 / 5 / 6: {}", list(&builds).join(" / "));
        println!("checksum: {}", grouped(self.checksums));
        println!(
            "make_guest, 24 / 9: {} / {}",
            grouped(self.made),
            grouped(self.not_made)
        );
    }
}

struct Run<'a, L: Lender> {
    library: &'a Library,
    lender: &'a mut L,
    stream: Stream,
    guest: Guest,
    tally: Tally,
}

/// Whether every call kept to what it may do. What it did else is printed.
pub fn run<L: Lender>(library: &Library, lender: &mut L, frames: u64, seed: u64) -> bool {
    let mut stream = Stream::new(seed);
    let guest = drawn_guest(&mut stream);
    let mut run = Run {
        library,
        lender,
        stream,
        guest,
        tally: Tally::default(),
    };
    while run.tally.frames < frames {
        let frame = run.stream.next();
        let served = run.serve(&frame);
        let built = served.map_err(|wrong| (wrong, frame)).and_then(|()| {
            match run.tally.frames % FRAMES_TO_A_BUILDER {
                0 => run.make(),
                _ => Ok(()),
            }
        });
        let made = built.and_then(|()| match run.tally.frames % FRAMES_TO_A_MAKING {
            0 => run.make_guest().map_err(|wrong| (wrong, vec![])),
            _ => Ok(()),
        });
        if let Err((wrong, bytes)) = made {
            let calls = grouped(run.tally.calls());
            println!("behind {calls} calls: {wrong}");
            println!("{}", shown(&bytes));
            return false;
        }
        run.tally.frames += 1;
    }
    run.tally.print(L::PLACES, seed);
    let Tally {
        sends,
        reads,
        made,
        not_made,
        ..
    } = &run.tally;
    let starved = sends.contains(&0) || reads[1..7].contains(&0) || [made, not_made].contains(&&0);
    if frames >= 100_000 && starved {
        println!("but a verdict, a kind or an answer of make_guest was never met");
        return false;
    }
    println!("{} calls, none at fault", grouped(run.tally.calls()));
    true
}

fn drawn_guest(stream: &mut Stream) -> Guest {
    let draws = &mut stream.draws;
    let any = draws.below(65_536) as u16;
    Guest {
        mac: draws.mac(),
        id: draws.one_of(&[1, 65_535, any]),
        xid: draws.word(),
        network: drawn_network(draws),
    }
}

/// Any addresses and any mask. The gateway is mostly the one that the drawn frames are for.
fn drawn_network(draws: &mut Draws) -> Network {
    let (gateway, guest, mask) = (draws.ip(), draws.ip(), draws.ip());
    Network {
        gateway: draws.one_of(&[DOCUMENT_01.gateway, DOCUMENT_01.gateway, gateway]),
        guest: draws.one_of(&[DOCUMENT_01.guest, guest]),
        mask: draws.one_of(&[DOCUMENT_01.mask, mask]),
        lease: draws.word(),
    }
}

/// A plan that is good, or bad in one way or in several: a hole in the mask, a prefix too short or too long, addresses that
/// are equal, of other networks, or at the edges of theirs.
fn drawn_plan(draws: &mut Draws) -> Plan {
    // Often the longest and the shortest prefix that will do, and the next ones.
    let any = draws.below(33);
    let host_bits = ((1_u64 << draws.one_of(&[1, 2, 3, 23, 24, 25, any, any, any])) - 1) as u32;
    let contiguous = (!host_bits).to_be_bytes();
    let [gateway, another] = [draws.ip(), draws.ip()].map(u32::from_be_bytes);
    let (lowest, highest) = (gateway & !host_bits, gateway | host_bits);
    let of_network = lowest | another & host_bits;
    let guest = draws.one_of(&[of_network, of_network, of_network, lowest, highest, another]);
    let mut addresses = [gateway, guest].map(u32::to_be_bytes);
    if draws.below(2) == 0 {
        addresses.reverse();
    }
    let any_mask = draws.ip();
    Plan {
        mac: draws.mac(),
        gateway: addresses[0],
        guest: addresses[1],
        mask: draws.one_of(&[contiguous, contiguous, contiguous, any_mask]),
        lease_named: draws.word() * draws.below(2) as u32,
        lease: draws.word(),
    }
}

pub fn shown(bytes: &[u8]) -> String {
    let dots = if bytes.len() > SHOWN { ".." } else { "" };
    let start = hex(&bytes[..bytes.len().min(SHOWN)]);
    format!("{} bytes: {start}{dots}", bytes.len())
}

/// The call at each place in memory: its answer must not depend on that.
fn everywhere<L: Lender, T: PartialEq + Debug>(
    lender: &mut L,
    call: impl Fn(&mut L) -> Result<T, String>,
) -> Result<T, String> {
    lender.go_to(0);
    let first = call(lender)?;
    for place in 1..L::PLACES {
        lender.go_to(place);
        let again = call(lender)?;
        if again != first {
            return Err(format!("the same call answers {first:?} and {again:?}"));
        }
    }
    Ok(first)
}

impl<L: Lender> Run<'_, L> {
    fn send(&mut self, frame: &[u8], room: usize) -> Result<Answer, String> {
        let (library, guest) = (self.library, self.guest);
        let answer = everywhere(self.lender, |lender| {
            calls::send(lender, library, guest, frame, room)
        })
        .map_err(|wrong| format!("yavoledu_send, {guest:?}, room {room}: {wrong}"))?;
        self.tally.sends[answer.number as usize] += L::PLACES as u64;
        Ok(answer)
    }

    fn read(&mut self, frame: &[u8]) -> Result<u32, String> {
        let library = self.library;
        let (kind, _) = everywhere(self.lender, |lender| calls::read(lender, library, frame))
            .map_err(|wrong| format!("yavoledu_read: {wrong}"))?;
        self.tally.reads[kind as usize] += L::PLACES as u64;
        Ok(kind)
    }

    fn checksum(&mut self, data: &[u8]) -> Result<(), String> {
        let library = self.library;
        everywhere(self.lender, |lender| calls::checksum(lender, library, data))
            .map_err(|wrong| format!("yavoledu_checksum: {wrong}"))?;
        self.tally.checksums += L::PLACES as u64;
        Ok(())
    }

    /// The frame with the usual room, then with rooms around what the reply needs, where there is one.
    fn serve(&mut self, frame: &[u8]) -> Result<(), String> {
        if self.stream.draws.below(FRAMES_OF_A_GUEST) == 0 {
            self.guest = drawn_guest(&mut self.stream);
        }
        let usual = self.send(frame, USUAL_ROOM)?;
        let any = self.stream.draws.below(USUAL_ROOM);
        let needed = match usual.number {
            REPLY | NO_ROOM => usual.values[0],
            _ => 0,
        };
        let mut replied = usual.clone();
        if needed > 0 {
            let mut rooms = vec![0, any % needed, needed - 1, needed, needed + 1];
            if self.stream.draws.below(TURNS_TO_A_LARGE_ROOM) == 0 {
                rooms.push(MOST_ROOM);
            }
            if usual.number == NO_ROOM {
                replied = self.send(frame, needed)?;
            }
            if (replied.number, replied.values) != (REPLY, [needed, 0]) {
                return Err("the bytes said to be needed are not the reply's".to_string());
            }
            for room in rooms {
                let answer = self.send(frame, room)?;
                let holds = if room < needed {
                    (answer.number, answer.values) == (NO_ROOM, [needed, 0])
                } else {
                    answer == replied
                };
                if !holds {
                    return Err(format!("room {room} is answered otherwise: {answer:?}"));
                }
            }
            if self.read(&replied.reply)? == OUTSIDE {
                return Err("the reply is outside the grammar".to_string());
            }
        } else if self.send(frame, any * (any % 2))? != usual {
            return Err("the room makes a difference where nothing is built".to_string());
        }
        self.read(frame)?;
        self.checksum(frame)?;
        self.guest = replied.after;
        Ok(())
    }

    /// A builder's call, or a checksum's of more bytes than frames have.
    fn make(&mut self) -> Result<(), (String, Vec<u8>)> {
        let draws = &mut self.stream.draws;
        let turn = draws.below(1 << 20);
        let builder = Builder::drawn(draws, turn);
        let payload = builder.payload(draws);
        let room = builder.room(draws, payload.len());
        let made = match &builder {
            Builder::Made(call) => self.made(call, &payload, room),
            Builder::Checksum { .. } | Builder::LongChecksum { .. } => self.checksum(&payload),
            // The library does not export these.
            Builder::DhcpReply { .. } | Builder::MessageType => Ok(()),
        };
        made.map_err(|wrong| (wrong, payload))
    }

    fn make_guest(&mut self) -> Result<(), String> {
        let plan = drawn_plan(&mut self.stream.draws);
        let (library, before) = (self.library, self.guest);
        let number = everywhere(self.lender, |lender| {
            calls::make_guest(lender, library, before, &plan)
        })
        .map_err(|wrong| format!("yavoledu_make_guest, {plan:?} over {before:?}: {wrong}"))?;
        match number {
            MADE => self.tally.made += L::PLACES as u64,
            _ => self.tally.not_made += L::PLACES as u64,
        }
        Ok(())
    }

    fn made(&mut self, call: &Call, payload: &[u8], room: usize) -> Result<(), String> {
        let (library, guest) = (self.library, self.guest);
        let answer = everywhere(self.lender, |lender| {
            calls::make(lender, library, guest, call, payload, room)
        })
        .map_err(|wrong| format!("{call:?}, id {}, room {room}: {wrong}", guest.id))?;
        self.tally.builds[answer.number as usize] += L::PLACES as u64;
        Ok(())
    }
}

// Between guards a byte out of range is a fault, which is told with the byte and the call.

static GUARDED: AtomicPtr<Guarded> = AtomicPtr::new(std::ptr::null_mut());

pub fn run_between_guards(library: &Library, mut lender: Guarded, frames: u64, seed: u64) -> bool {
    GUARDED.store(&mut lender, Ordering::Relaxed);
    signals::watch_for_faults(on_fault, signals::Stack::OfTheCall);
    run(library, &mut lender, frames, seed)
}

/// It prints, which a handler may not do in general; here the program is in the library, or it ends wrongly anyway.
extern "C" fn on_fault(number: i32, told: *const Told, _: *const u8) {
    unsafe {
        let place = (*GUARDED.load(Ordering::Relaxed)).words_for((*told).address);
        let place = place.unwrap_or("an address that was not lent".to_string());
        println!("signal {number} at {place}");
        match NOW.load(Ordering::Relaxed).as_ref() {
            Some(now) => {
                println!("in {}, room {}", now.function, now.room);
                println!("{}", shown(&*now.bytes));
            }
            None => println!("outside of any call"),
        }
        signals::end(1);
    }
}
