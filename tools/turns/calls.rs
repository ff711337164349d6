//! The calls that a host makes, each with all that it is lent, so that one input can be run as often as need be.

use crate::counted::CountedLibrary;
use record::{Guest, Network};
use std::borrow::Cow;
use std::panic::{AssertUnwindSafe, catch_unwind};
use turns::Taken;

pub const PAYLOAD_LIMIT: usize = 65_515;
pub const BITMAP: usize = 128;

pub const GATEWAY: [u8; 4] = [10, 0, 2, 2];
pub const GUEST: [u8; 4] = [10, 0, 2, 15];
pub const MAC: [u8; 6] = [0x52, 0x54, 0x00, 0x12, 0x34, 0x56];

/// A guest's store as C keeps it.
#[derive(Clone)]
pub struct Store {
    pub state: [u32; 6],
    pub bytes: Vec<u8>,
    pub bits: Vec<u64>,
}

impl Store {
    pub fn empty() -> Store {
        Store {
            state: [0; 6],
            bytes: vec![0; PAYLOAD_LIMIT],
            bits: vec![0; BITMAP],
        }
    }
}

pub enum Call<'a> {
    Send {
        frame: Vec<u8>,
        room: usize,
    },
    Read {
        frame: Vec<u8>,
    },
    Take {
        store: Store,
        frame: Vec<u8>,
    },
    Release {
        store: Store,
    },
    Checksum {
        data: Cow<'a, [u8]>,
    },
    MakeIpFrame {
        payload: Vec<u8>,
        room: usize,
    },
    MakeUdpPayload {
        data: Vec<u8>,
        room: usize,
    },
    MakeTcpFrame {
        flags: u8,
        data: Vec<u8>,
        room: usize,
    },
    MakeGuest {
        gateway: [u8; 4],
        guest: [u8; 4],
        mask: [u8; 4],
    },
}

/// What a call answered and all that it may have written.
#[derive(PartialEq)]
pub struct Outcome {
    pub number: u32,
    pub values: Vec<usize>,
    pub written: Vec<u8>,
    pub store: Option<(Vec<u64>, [u32; 6])>,
    pub record: Vec<u64>,
}

/// The functions of a library. The counted one takes slices; C's functions take an address and a length for each.
pub trait Library {
    fn send(
        &self,
        guest: &mut Guest,
        frame: &[u8],
        reply: &mut [u8],
        values: &mut [usize; 2],
    ) -> u32;
    fn read(&self, frame: &[u8], parts: &mut [usize; 13]) -> u32;
    fn take(
        &self,
        state: &mut [u32; 6],
        frame: &[u8],
        bytes: &mut [u8],
        bits: &mut [u64],
        payload: &mut [usize; 2],
    ) -> u32;
    fn release(&self, state: &mut [u32; 6], bytes: &[u8], bits: &mut [u64]) -> u32;
    fn checksum(&self, data: &[u8]) -> u16;
    fn make_ip_frame(
        &self,
        id: &mut u16,
        payload: &[u8],
        out: &mut [u8],
        values: &mut [usize; 2],
    ) -> u32;
    fn make_udp_payload(&self, data: &[u8], out: &mut [u8], values: &mut [usize; 2]) -> u32;
    fn make_tcp_frame(
        &self,
        id: &mut u16,
        flags: u8,
        data: &[u8],
        out: &mut [u8],
        values: &mut [usize; 2],
    ) -> u32;
    fn make_guest(
        &self,
        record: &mut Guest,
        gateway: &[u8; 4],
        guest: &[u8; 4],
        mask: &[u8; 4],
    ) -> u32;
}

// What the builders are called with beside their bytes.
pub const PROTOCOL: u8 = 99;
pub const PORTS: [u16; 2] = [53, 4_000];
pub const SEQUENCE: [u32; 2] = [0x0102_0304, 0xfffe_fdfc];

pub fn fresh_record() -> Guest {
    Guest {
        mac: MAC,
        id: 65_535,
        xid: 0,
        network: Network {
            gateway: GATEWAY,
            guest: GUEST,
            mask: [255, 255, 255, 0],
            lease: 86_400,
        },
    }
}

fn numbers_of(record: &Guest) -> Vec<u64> {
    let network = &record.network;
    let number = |bytes: &[u8]| {
        bytes
            .iter()
            .fold(0, |sum, byte| sum * 256 + u64::from(*byte))
    };
    vec![
        number(&record.mac),
        record.id.into(),
        record.xid.into(),
        number(&network.gateway),
        number(&network.guest),
        number(&network.mask),
        network.lease.into(),
    ]
}

impl Call<'_> {
    pub fn function(&self) -> &'static str {
        match self {
            Call::Send { .. } => "yavoledu_send",
            Call::Read { .. } => "yavoledu_read",
            Call::Take { .. } => "yavoledu_take",
            Call::Release { .. } => "yavoledu_release",
            Call::Checksum { .. } => "yavoledu_checksum",
            Call::MakeIpFrame { .. } => "yavoledu_make_ip_frame",
            Call::MakeUdpPayload { .. } => "yavoledu_make_udp_payload",
            Call::MakeTcpFrame { .. } => "yavoledu_make_tcp_frame",
            Call::MakeGuest { .. } => "yavoledu_make_guest",
        }
    }

    /// The length of the frame that is lent or would be built, or of the bytes that are summed; none where a call has no such length.
    pub fn frame_length(&self) -> Option<usize> {
        match self {
            Call::Send { frame, .. } | Call::Read { frame } | Call::Take { frame, .. } => {
                Some(frame.len())
            }
            Call::Checksum { data } => Some(data.len()),
            Call::MakeIpFrame { payload, .. } => Some(34 + payload.len()),
            Call::MakeUdpPayload { data, .. } => Some(42 + data.len()),
            Call::MakeTcpFrame { flags, data, .. } => {
                Some(54 + if flags & 2 != 0 { 8 } else { 0 } + data.len())
            }
            Call::Release { .. } | Call::MakeGuest { .. } => None,
        }
    }

    pub fn is_lent_a_frame(&self) -> bool {
        matches!(
            self,
            Call::Send { .. } | Call::Read { .. } | Call::Take { .. }
        )
    }

    pub fn run(&self, library: &dyn Library) -> Outcome {
        let (mut values, mut written, mut parts) = ([0; 2], Vec::new(), [0; 13]);
        let (mut record, mut kept, mut reads) = (fresh_record(), None, false);
        let room_of = |room: usize| vec![0xa5; room];
        let number = match self {
            Call::Send { frame, room } => {
                written = room_of(*room);
                library.send(&mut record, frame, &mut written, &mut values)
            }
            Call::Read { frame } => {
                reads = true;
                library.read(frame, &mut parts)
            }
            Call::Take { store, frame } => {
                let mut store = store.clone();
                let number = library.take(
                    &mut store.state,
                    frame,
                    &mut store.bytes,
                    &mut store.bits,
                    &mut values,
                );
                written = store.bytes;
                kept = Some((store.bits, store.state));
                number
            }
            Call::Release { store } => {
                let mut store = store.clone();
                let number = library.release(&mut store.state, &store.bytes, &mut store.bits);
                written = store.bytes;
                kept = Some((store.bits, store.state));
                number
            }
            Call::Checksum { data } => library.checksum(data).into(),
            Call::MakeIpFrame { payload, room } => {
                written = room_of(*room);
                library.make_ip_frame(&mut record.id, payload, &mut written, &mut values)
            }
            Call::MakeUdpPayload { data, room } => {
                written = room_of(*room);
                library.make_udp_payload(data, &mut written, &mut values)
            }
            Call::MakeTcpFrame { flags, data, room } => {
                written = room_of(*room);
                library.make_tcp_frame(&mut record.id, *flags, data, &mut written, &mut values)
            }
            Call::MakeGuest {
                gateway,
                guest,
                mask,
            } => library.make_guest(&mut record, gateway, guest, mask),
        };
        let values = if reads {
            parts.to_vec()
        } else {
            values.to_vec()
        };
        Outcome {
            number,
            values,
            written,
            store: kept,
            record: numbers_of(&record),
        }
    }

    /// The call on the library with counters.
    pub fn counted(&self) -> Result<(Outcome, Taken), String> {
        turns::start();
        caught(|| self.run(&CountedLibrary)).map(|outcome| (outcome, turns::counted()))
    }
}

/// What the code answers; an error where it ends in a panic, as on a sum that overflows.
pub fn caught<T>(code: impl FnOnce() -> T) -> Result<T, String> {
    catch_unwind(AssertUnwindSafe(code)).map_err(|panic| {
        let text = match panic.downcast::<String>() {
            Ok(text) => *text,
            Err(panic) => panic
                .downcast::<&str>()
                .map_or("a panic".to_string(), |text| text.to_string()),
        };
        format!("the code panics: {text}")
    })
}
