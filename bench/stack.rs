//! The deepest stack of a call: it is made on a stack that was painted before, and what is no longer
//! paint was written to.

use std::arch::asm;
use std::ffi::c_void;
use std::hint::black_box;
use std::ptr::null_mut;

use crate::draws::{BROADCAST_IP, GATEWAY_IP, GUEST_MAC};
use crate::guest_frames::dns_query;
use crate::inputs;
use crate::ours::{self, Network};
use crate::reassembly;
use crate::rows::{HIGHEST_GUEST, NETWORK, ROOM, STOOD_THERE, make_guest, new_guest};

pub struct Deepest {
    pub export: &'static str,
    pub bytes: usize,
    /// The input that took most.
    pub on: &'static str,
}

struct Input {
    name: &'static str,
    call: Call,
    answer: u32,
}

/// A call of an export: where the stack stood right before it, and what it answered.
type Call = Box<dyn Fn() -> (usize, u32)>;

pub fn measured() -> Vec<Deepest> {
    let exports = [
        ("`yavoledu_make_guest`", makings()),
        ("`yavoledu_send`", sends()),
        ("`yavoledu_make_ip_frame`", ip_frames()),
        ("`yavoledu_make_udp_payload`", udp_payloads()),
        ("`yavoledu_make_tcp_frame`", tcp_frames()),
        ("`yavoledu_checksum`", checksums()),
        ("`yavoledu_read`, no long list", reads()),
        ("`yavoledu_read`, long lists", reads_of_long_lists()),
        ("`yavoledu_read`, pads alone", reads_of_pads()),
        ("`yavoledu_take`", takes()),
        ("`yavoledu_release`", releases()),
    ];
    let deepest = |(export, inputs): (&'static str, Vec<Input>)| {
        let measured = inputs.into_iter().map(|input| Deepest {
            export,
            bytes: depth(&input),
            on: input.name,
        });
        let deeper =
            |one: Deepest, other: Deepest| if other.bytes > one.bytes { other } else { one };
        measured.reduce(deeper).unwrap()
    };
    exports.into_iter().map(deepest).collect()
}

fn makings() -> Vec<Input> {
    vec![
        making("a record made", NETWORK, ours::MADE),
        making("one refused", HIGHEST_GUEST, ours::BAD_RECORD),
    ]
}

/// Every verdict, and the longest walks over options.
fn sends() -> Vec<Input> {
    vec![
        send("an ARP request", inputs::arp_request(), ROOM, ours::REPLY),
        send("a ping of 0 bytes", inputs::ping_of(0), ROOM, ours::REPLY),
        send("a ping of 56 bytes", inputs::ping_of(56), ROOM, ours::REPLY),
        send(
            "a ping of 65,507 bytes",
            inputs::ping_of(65_507),
            ROOM,
            ours::REPLY,
        ),
        send(
            "a ping of 65,508 bytes",
            inputs::ping_of(65_508),
            ROOM,
            ours::TOO_LONG,
        ),
        send(
            "a ping without room",
            inputs::ping_of(56),
            97,
            ours::NO_ROOM,
        ),
        send("a DHCP discover", inputs::discover(), ROOM, ours::REPLY),
        send(
            "a DHCP discover without room",
            inputs::discover(),
            341,
            ours::NO_ROOM,
        ),
        send("1,232 pads", inputs::nothing_but_pads(), ROOM, ours::DROP),
        send("1,229 items", inputs::most_items(), ROOM, ours::REPLY),
        send(
            "a cut message type",
            inputs::cut_type(),
            ROOM,
            ours::CUT_TYPE,
        ),
        send(
            "a relayed datagram",
            inputs::datagram_for_outside(512),
            ROOM,
            ours::RELAY,
        ),
        send("a DNS query", dns_query(), ROOM, ours::DNS),
        send("a TCP frame", inputs::opening_segment(), ROOM, ours::TCP),
        send("an IPv6 frame", inputs::ipv6(), ROOM, ours::DROP),
        send("no byte", vec![], ROOM, ours::DROP),
    ]
}

fn ip_frames() -> Vec<Input> {
    vec![
        ip_frame("no payload", 0, ours::REPLY),
        ip_frame("1,480 bytes", 1_480, ours::REPLY),
        ip_frame("65,515 bytes", 65_515, ours::REPLY),
        ip_frame("65,516 bytes", 65_516, ours::TOO_LONG),
    ]
}

fn udp_payloads() -> Vec<Input> {
    vec![
        udp_payload("no data", 0, ours::REPLY),
        udp_payload("1,472 bytes", 1_472, ours::REPLY),
        udp_payload("65,527 bytes", 65_527, ours::REPLY),
        udp_payload("65,528 bytes", 65_528, ours::TOO_LONG),
    ]
}

fn tcp_frames() -> Vec<Input> {
    const SYN: u8 = 0x02;
    const ACK: u8 = 0x10;
    vec![
        tcp_frame("SYN", 0, SYN, ours::REPLY),
        tcp_frame("no data", 0, ACK, ours::REPLY),
        tcp_frame("1,460 bytes", 1_460, ACK, ours::REPLY),
        tcp_frame("1,460 bytes with SYN", 1_460, SYN, ours::REPLY),
        tcp_frame("65,496 bytes", 65_496, ACK, ours::TOO_LONG),
    ]
}

fn checksums() -> Vec<Input> {
    vec![
        checksum("no byte", 0, 0xffff),
        checksum("140,001 bytes", 140_001, 0x00ff),
    ]
}

fn reads() -> Vec<Input> {
    vec![
        read("an ARP request", inputs::arp_request(), ours::KIND_ARP),
        read("a ping of 56 bytes", inputs::ping_of(56), ours::KIND_ICMP),
        read(
            "a ping of 65,507 bytes",
            inputs::ping_of(65_507),
            ours::KIND_ICMP,
        ),
        read(
            "a datagram",
            inputs::datagram_for_outside(512),
            ours::KIND_UDP,
        ),
        read(
            "a datagram with a sum",
            inputs::summed_datagram(),
            ours::KIND_UDP,
        ),
        read("a TCP frame", inputs::opening_segment(), ours::KIND_TCP),
        read("a DHCP discover", inputs::discover(), ours::KIND_DHCP),
        read("a cut message type", inputs::cut_type(), ours::OUTSIDE),
        read("an IPv6 frame", inputs::ipv6(), ours::OUTSIDE),
        read("no byte", vec![], ours::OUTSIDE),
    ]
}

/// The list reader and the item reader call each other, once an item. These lists are in the grammar.
fn reads_of_long_lists() -> Vec<Input> {
    vec![
        read(
            "615 items, in the grammar",
            inputs::empty_options(),
            ours::KIND_DHCP,
        ),
        read(
            "1,229 items, in the grammar",
            inputs::most_items(),
            ours::KIND_DHCP,
        ),
    ]
}

fn reads_of_pads() -> Vec<Input> {
    let pads = inputs::nothing_but_pads();
    vec![read("1,232 items, outside it", pads, ours::OUTSIDE)]
}

fn takes() -> Vec<Input> {
    let part = |offset, more, len| reassembly::fragment(offset, more, &inputs::filling(len));
    vec![
        taking("a frame that passes", part(0, false, 1_480), ours::PASSED),
        taking("8 bytes", part(65_504, true, 8), ours::STORED),
        taking("1,480 bytes", part(40_000, true, 1_480), ours::STORED),
        taking("a last one", part(64_032, false, 1_480), ours::STORED),
        taking("a refusal 12", part(0, true, 1_480), ours::OVERLAP),
        taking("no byte", vec![], ours::UNFIT),
    ]
}

fn releases() -> Vec<Input> {
    let call = Box::new(move || {
        let mut store = reassembly::half_full();
        let here = stack_pointer();
        (here, reassembly::release(&mut store))
    });
    vec![Input {
        name: "a store half full",
        call,
        answer: ours::RELEASED,
    }]
}

fn making(name: &'static str, network: Network, answer: u32) -> Input {
    let call = Box::new(move || {
        let mut guest = STOOD_THERE;
        let here = stack_pointer();
        (here, make_guest(&mut guest, &network))
    });
    Input { name, call, answer }
}

fn taking(name: &'static str, frame: Vec<u8>, answer: u32) -> Input {
    let call = Box::new(move || {
        let (mut store, mut place) = (reassembly::half_full(), [0; 2]);
        let here = stack_pointer();
        (here, reassembly::take(&mut store, &frame, &mut place))
    });
    Input { name, call, answer }
}

fn send(name: &'static str, frame: Vec<u8>, room: usize, answer: u32) -> Input {
    let reply = vec![0u8; room].leak().as_mut_ptr();
    let call = Box::new(move || {
        let mut guest = new_guest(1);
        let (at, len, mut values) = (frame.as_ptr(), frame.len(), [0; 2]);
        let here = stack_pointer();
        let number = unsafe { ours::yavoledu_send(&mut guest, at, len, reply, room, &mut values) };
        (here, number)
    });
    Input { name, call, answer }
}

fn ip_frame(name: &'static str, len: usize, answer: u32) -> Input {
    let (payload, out) = (inputs::filling(len), vec![0u8; ROOM].leak().as_mut_ptr());
    let call = Box::new(move || {
        let (mut id, mut values) = (1, [0; 2]);
        let here = stack_pointer();
        let number = unsafe {
            ours::yavoledu_make_ip_frame(
                &mut id,
                &GUEST_MAC,
                &GATEWAY_IP,
                &BROADCAST_IP,
                17,
                payload.as_ptr(),
                payload.len(),
                out,
                ROOM,
                &mut values,
            )
        };
        (here, number)
    });
    Input { name, call, answer }
}

fn udp_payload(name: &'static str, len: usize, answer: u32) -> Input {
    let (data, out) = (inputs::filling(len), vec![0u8; ROOM].leak().as_mut_ptr());
    let call = Box::new(move || {
        let mut values = [0; 2];
        let here = stack_pointer();
        let number = unsafe {
            ours::yavoledu_make_udp_payload(
                &GATEWAY_IP,
                67,
                &BROADCAST_IP,
                68,
                data.as_ptr(),
                data.len(),
                out,
                ROOM,
                &mut values,
            )
        };
        (here, number)
    });
    Input { name, call, answer }
}

fn tcp_frame(name: &'static str, len: usize, flags: u8, answer: u32) -> Input {
    let (data, out) = (inputs::filling(len), vec![0u8; ROOM].leak().as_mut_ptr());
    let call = Box::new(move || {
        let (mut id, mut values) = (1, [0; 2]);
        let here = stack_pointer();
        let number = unsafe {
            ours::yavoledu_make_tcp_frame(
                &mut id,
                &GUEST_MAC,
                &GATEWAY_IP,
                443,
                &BROADCAST_IP,
                40_000,
                1,
                2,
                flags,
                data.as_ptr(),
                data.len(),
                out,
                ROOM,
                &mut values,
            )
        };
        (here, number)
    });
    Input { name, call, answer }
}

fn checksum(name: &'static str, ones: usize, answer: u32) -> Input {
    let data = vec![0xff; ones];
    let call = Box::new(move || {
        let here = stack_pointer();
        let sum = unsafe { ours::yavoledu_checksum(data.as_ptr(), data.len()) };
        (here, u32::from(sum))
    });
    Input { name, call, answer }
}

fn read(name: &'static str, frame: Vec<u8>, answer: u32) -> Input {
    let call = Box::new(move || {
        let (at, len, mut parts) = (frame.as_ptr(), frame.len(), [0; 13]);
        let here = stack_pointer();
        (here, unsafe { ours::yavoledu_read(at, len, &mut parts) })
    });
    Input { name, call, answer }
}

#[inline(always)]
fn stack_pointer() -> usize {
    let here: usize;
    unsafe {
        #[cfg(target_arch = "x86_64")]
        asm!("mov {}, rsp", out(reg) here, options(nomem, nostack, preserves_flags));
        #[cfg(target_arch = "aarch64")]
        asm!("mov {}, sp", out(reg) here, options(nomem, nostack, preserves_flags));
    }
    here
}

/// In words of eight bytes.
const STACK: usize = 64 * 1024;
/// A byte that happens to be written as one paint isn't the other.
const PAINTS: [u64; 2] = [0x5a5a_5a5a_5a5a_5a5a, 0xa5a5_a5a5_a5a5_a5a5];

/// Bytes from where the stack stood before the call down to the last one written. Arguments for which
/// there is no register lie above, in the caller's frame.
fn depth(input: &Input) -> usize {
    let depths = PAINTS.map(|paint| {
        let mut stack = vec![paint; STACK];
        let mut job = Job {
            call: &input.call,
            told: (0, 0),
        };
        run_on(&mut stack, &mut job);
        let (here, answer) = job.told;
        assert_eq!(answer, input.answer, "{}", input.name);
        let lowest = stack.iter().position(|word| *word != paint).unwrap();
        assert!(lowest > 0, "{}: the stack is too small", input.name);
        here - stack[lowest..].as_ptr() as usize
    });
    depths[0].max(depths[1])
}

struct Job<'a> {
    call: &'a Call,
    told: (usize, u32),
}

type Start = extern "C" fn(*mut c_void) -> *mut c_void;
/// More than a `pthread_attr_t` has on any machine.
type Attributes = [u64; 16];

unsafe extern "C" {
    fn pthread_attr_init(attributes: *mut Attributes) -> i32;
    fn pthread_attr_setstack(attributes: *mut Attributes, at: *mut u64, bytes: usize) -> i32;
    fn pthread_create(
        thread: *mut usize,
        attributes: *const Attributes,
        start: Start,
        argument: *mut c_void,
    ) -> i32;
    fn pthread_join(thread: usize, result: *mut *mut c_void) -> i32;
}

fn run_on(stack: &mut [u64], job: &mut Job) {
    let (mut attributes, mut thread) = ([0; 16], 0);
    unsafe {
        assert_eq!(pthread_attr_init(&mut attributes), 0);
        let bytes = size_of_val(stack);
        assert_eq!(
            pthread_attr_setstack(&mut attributes, stack.as_mut_ptr(), bytes),
            0
        );
        let argument = job as *mut Job as *mut c_void;
        assert_eq!(pthread_create(&mut thread, &attributes, start, argument), 0);
        assert_eq!(pthread_join(thread, null_mut()), 0);
    }
}

extern "C" fn start(job: *mut c_void) -> *mut c_void {
    let job = unsafe { &mut *(job as *mut Job) };
    job.told = far_down(job.call);
    null_mut()
}

/// Below what starting and ending a thread takes of its stack.
#[inline(never)]
fn far_down(call: &Call) -> (usize, u32) {
    let between = [0u8; 32 * 1024];
    black_box(&between);
    let told = call();
    black_box(&between);
    told
}
