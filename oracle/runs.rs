//! Runs of the published Rust, small and chosen by hand, as a table in antt: `Runs.antt` of the crate
//! `published`. Every test of the text is passed and failed, at its boundary. The inputs are here;
//! every answer is the Rust's.

mod antt_text;
#[allow(dead_code)]
mod draws;
#[allow(dead_code)]
mod guest_frames;
#[allow(dead_code)]
mod networks;
mod run_inputs;
mod run_rows;
#[allow(dead_code)]
mod the_rust;

use antt_text::Writer;
use run_inputs::*;
use run_rows::{Before, Oracle, STARTED, STARTED_TEXT};

/// What stands before the names and the rows.
const HEAD: &str = include_str!("runs_head.antt.txt");

struct Table {
    oracle: Oracle,
    text: String,
    /// The rows of the group that is open.
    rows: Vec<(String, String)>,
}

impl Table {
    fn row(&mut self, row: String, remark: &str) {
        self.rows.push((row, remark.to_string()));
    }

    /// Gives the rows since the last group a name.
    fn close(&mut self, name: &str, what: &str) {
        self.text += &format!("\n-- {what}\nabbrev pub {name} : List Row\n{name} =\n");
        for (at, (row, remark)) in self.rows.drain(..).enumerate() {
            let joint = if at == 0 { "" } else { "∷ " };
            self.text += &format!("    {joint}{row}  -- {remark}\n");
        }
        self.text += "    ∷ []\n";
    }

    fn sends(&mut self, frame: &[u8], remark: &str) {
        let row = self.oracle.sends(&STARTED, frame);
        self.row(row, remark);
    }

    fn sends_with(&mut self, mac: [u8; 6], xid: u32, counter: u16, frame: &[u8], remark: &str) {
        let before = Before { mac, xid, counter };
        let row = self.oracle.sends(&before, frame);
        self.row(row, remark);
    }

    fn sums(&mut self, data: &[u8], remark: &str) {
        let row = self.oracle.sums(data);
        self.row(row, remark);
    }

    fn types(&mut self, behind_240: &[u8], remark: &str) {
        self.types_of(&[&[0; 240], behind_240].concat(), remark);
    }

    fn types_of(&mut self, message: &[u8], remark: &str) {
        let row = self.oracle.types(message);
        self.row(row, remark);
    }
}

fn main() {
    let names = names();
    let mut text = HEAD.to_string();
    for name in &names {
        text += &name.definition();
    }
    text += "\n-- the backend with which most rows start\nabbrev pub started : SlirpBackend\n";
    text += &format!("started = {STARTED_TEXT}\n");
    let mut table = Table {
        oracle: Oracle::new(Writer::new(names)),
        text,
        rows: vec![],
    };
    let start = table.oracle.starts();
    table.row(start, "before any frame");
    table.close("starting", "`new`");
    ethernet_rows(&mut table);
    arp_rows(&mut table);
    ipv4_rows(&mut table);
    icmp_rows(&mut table);
    icmp_header_rows(&mut table);
    udp_rows(&mut table);
    udp_header_rows(&mut table);
    dhcp_rows(&mut table);
    dhcp_reply_rows(&mut table);
    type_rows(&mut table);
    sum_rows(&mut table);
    frame_rows(&mut table);
    datagram_rows(&mut table);
    segment_rows(&mut table);
    reply_rows(&mut table);
    print!("{}", table.text);
}

fn ethernet_rows(table: &mut Table) {
    let request = arp_request();
    let ping = ping(&[]);
    table.sends(&[], "no byte");
    table.sends(&request[..13], "13 bytes");
    table.sends(&request[..14], "14 bytes of type ARP");
    table.sends(&ping[..14], "14 bytes of type IPv4");
    table.sends(
        &typed(&request, 0x0805),
        "another type than ARP's, its low byte",
    );
    table.sends(
        &typed(&request, 0x0906),
        "another type than ARP's, its high byte",
    );
    table.sends(
        &typed(&ping, 0x0801),
        "another type than IPv4's, its low byte",
    );
    table.sends(
        &typed(&ping, 0x0008),
        "IPv4's type with its bytes exchanged",
    );
    table.sends(&typed(&request, 0x0800), "an ARP request as IPv4");
    table.sends(&typed(&ping, 0x0806), "a ping as ARP");
    table.close("ethernet", "`send`: lengths and types");
}

fn arp_rows(table: &mut Table) {
    let request = arp_request();
    table.sends(&request[..41], "41 bytes");
    table.sends(&request, "42 bytes");
    table.sends(&padded(&request, 60), "padded to 60 bytes");
    for (operation, remark) in [
        (2, "a reply"),
        (0, "operation 0"),
        (0x0101, "the operation's high byte is not 0"),
        (0x0100, "operation 1 with its bytes exchanged"),
    ] {
        table.sends(&over(&request, 20, &u16::to_be_bytes(operation)), remark);
    }
    for (target, remark) in near_gateway() {
        table.sends(&over(&request, 38, &target), remark);
    }
    let other_fields = over(&request, 14, &[0xa1, 0xa2, 0xa3, 0xa4, 0xa5, 0xa6]);
    table.sends(
        &other_fields,
        "hardware, protocol and their lengths are not looked at",
    );
    table.sends(
        &over(&request, 28, &OTHER_IP),
        "the sender's address is another",
    );
    table.sends_with(
        OTHER_MAC,
        0,
        65_535,
        &request,
        "another record, and the counter stays",
    );
    table.close("arp", "`handle_arp`");
}

fn ipv4_rows(table: &mut Table) {
    let segment = packet(0x45, 6, OTHER_IP, &[0xc1, 0xc2, 0xc3]);
    table.sends(&segment[..33], "33 bytes of TCP");
    table.sends(&segment[..34], "34 bytes of TCP");
    table.sends(&segment, "TCP");
    table.sends(
        &packet(0x4f, 6, GATEWAY_IP, &[]),
        "TCP to the gateway, its header past the frame",
    );
    table.sends_with(OTHER_MAC, 0, 65_535, &segment, "TCP with another record");
    let ping = ping(&[]);
    table.sends(&ping[..33], "33 bytes of ICMP");
    table.sends(&ping[..34], "34 bytes of ICMP");
    let datagram = packet(0x45, 17, OTHER_IP, &udp(1, 2, 8, &[]));
    table.sends(&datagram[..33], "33 bytes of UDP");
    table.sends(&datagram[..34], "34 bytes of UDP");
    for proto in [0, 2, 5, 7, 16, 18] {
        table.sends(&over(&ping, 23, &[proto]), &format!("protocol {proto}"));
    }
    table.close("ipv4", "`handle_ip`: lengths and protocols");
}

fn icmp_rows(table: &mut Table) {
    let whole = ping(&[]);
    table.sends(&whole[..41], "7 bytes of ICMP");
    table.sends(&whole, "8 bytes of ICMP");
    table.sends(&ping(&[0xd1]), "9 bytes, an odd sum");
    table.sends(&ping(&[0xd1, 0xd2]), "10 bytes");
    table.sends(&ping(&[0xff; 5]), "13 bytes, sums past 16 bits");
    table.sends(&padded(&ping(&[0xd1]), 60), "padding behind it comes back");
    table.sends(&over(&whole, 34, &[0]), "type 0");
    table.sends(&over(&whole, 34, &[7]), "type 7");
    table.sends(&over(&whole, 34, &[9]), "type 9");
    table.sends(&over(&whole, 35, &[3]), "code 3");
    table.sends(&over(&whole, 38, &[0xff; 4]), "id and sequence of ones");
    for (target, remark) in near_gateway() {
        table.sends(&over(&whole, 30, &target), remark);
    }
    table.sends(&over(&whole, 26, &OTHER_IP), "from another address");
    table.sends_with(RECORD_MAC, 0, 0, &whole, "counter 0");
    table.sends_with(RECORD_MAC, 0, 255, &whole, "counter 255");
    table.sends_with(
        OTHER_MAC,
        5,
        65_535,
        &whole,
        "counter 65,535, which goes on at 0; another record",
    );
    table.close("icmp", "`handle_icmp`");
}

fn icmp_header_rows(table: &mut Table) {
    let message = ECHO;
    let to_gateway = |first: u8, payload: &[u8]| packet(first, 1, GATEWAY_IP, payload);
    table.sends(&to_gateway(0x40, &message), "header of 0 bytes: type 64");
    table.sends(
        &over(&to_gateway(0x41, &[]), 18, &[8]),
        "header of 4 bytes: the id's first byte is type 8",
    );
    table.sends(
        &over(&to_gateway(0x43, &[]), 26, &[8]),
        "header of 12 bytes: 8 bytes of addresses",
    );
    table.sends(
        &to_gateway(0x44, &message),
        "header of 16 bytes: the target's first byte is the type",
    );
    table.sends(
        &to_gateway(0x46, &message),
        "header of 24 bytes: 4 bytes of ICMP",
    );
    let options = |n: usize| [&vec![0xe1; n][..], &message].concat();
    table.sends(&to_gateway(0x46, &options(4)), "header of 24 bytes");
    table.sends(
        &to_gateway(0x46, &[0xe1; 4]),
        "header of 24 bytes, which ends the frame",
    );
    table.sends(
        &to_gateway(0x46, &[0xe1; 3]),
        "header of 24 bytes, one past the frame",
    );
    table.sends(&to_gateway(0x4f, &options(40)), "header of 60 bytes");
    table.sends(&to_gateway(0x4f, &[]), "header of 60 bytes, past the frame");
    table.sends(
        &packet(0x4f, 1, OTHER_IP, &[]),
        "the same to another target",
    );
    table.sends(&to_gateway(0x05, &message), "version 0");
    table.sends(&to_gateway(0x55, &message), "version 5");
    table.sends(&to_gateway(0xf5, &message), "version 15");
    table.close(
        "icmp_headers",
        "`ip_hlen` and `ip_payload` before `handle_icmp`",
    );
}

fn udp_rows(table: &mut Table) {
    let to = |target: [u8; 4], src: u16, dst: u16| {
        packet(0x45, 17, target, &udp(src, dst, 10, &[0xd1, 0xd2]))
    };
    let of_length =
        |length: u16, data: &[u8]| packet(0x45, 17, OTHER_IP, &udp(0x0102, 0x0304, length, data));
    table.sends(&of_length(8, &[])[..41], "7 bytes of UDP");
    table.sends(&of_length(8, &[]), "8 bytes of UDP");
    table.sends(&of_length(7, &[]), "length field 7");
    table.sends(&of_length(0, &[0xd1]), "length field 0");
    table.sends(
        &of_length(8, &[0xd1, 0xd2]),
        "length field 8, padding behind",
    );
    table.sends(
        &of_length(9, &[0xd1, 0xd2]),
        "length field 9, padding behind",
    );
    table.sends(&of_length(10, &[0xd1, 0xd2]), "length field 10");
    table.sends(
        &of_length(11, &[0xd1, 0xd2]),
        "length field 11, past the payload",
    );
    table.sends(
        &of_length(0x0109, &[0xd1, 0xd2]),
        "length field 265, past the payload",
    );
    table.sends(&of_length(65_535, &[0xd1]), "length field 65,535");
    table.sends(
        &to(GATEWAY_IP, 68, 67),
        "68 to 67: DHCP, and too short for it",
    );
    table.sends(
        &to(OTHER_IP, 68, 67),
        "68 to 67 of another target: DHCP too",
    );
    table.sends(&to(GATEWAY_IP, 67, 68), "67 to 68");
    table.sends(&to(GATEWAY_IP, 67, 67), "67 to 67");
    table.sends(&to(GATEWAY_IP, 68, 68), "68 to 68");
    table.sends(
        &to(GATEWAY_IP, 68, 0x4300),
        "68 to 67 with its bytes exchanged",
    );
    table.sends(&to(GATEWAY_IP, 0x0144, 67), "324 to 67");
    table.sends(&to(GATEWAY_IP, 0x0102, 53), "53 of the gateway");
    table.sends(&to(GATEWAY_IP, 68, 53), "68 to 53 of the gateway");
    for (target, _) in near_gateway() {
        table.sends(&to(target, 0x0102, 53), "53 of another target");
    }
    table.sends(&to(GATEWAY_IP, 53, 0x0102), "53 is the source's");
    table.sends(&to(GATEWAY_IP, 0x0102, 0x0135), "309 of the gateway");
    let from_gateway = over(&to(OTHER_IP, 53, 53), 26, &GATEWAY_IP);
    table.sends(
        &from_gateway,
        "53 of another target, from the gateway's address",
    );
    table.sends_with(
        OTHER_MAC,
        0,
        65_535,
        &to(GATEWAY_IP, 1, 53),
        "53 of the gateway, another record",
    );
    table.close("datagrams_sent", "`handle_udp`");
}

fn udp_header_rows(table: &mut Table) {
    let datagram = udp(0x0102, 0x0304, 10, &[0xd1, 0xd2]);
    let with = |first: u8, payload: &[u8]| packet(first, 17, OTHER_IP, payload);
    let options = |n: usize| [&vec![0xe1; n][..], &datagram].concat();
    let short = over(&with(0x40, &[]), 18, &[0, 9]);
    table.sends(
        &short,
        "header of 0 bytes: the ports are its own first bytes",
    );
    table.sends(
        &over(&with(0x41, &[]), 22, &[0]),
        "header of 4 bytes: time to live and protocol are the length field",
    );
    table.sends(
        &with(0x44, &[0, 9, 0, 0, 0xd1]),
        "header of 16 bytes: the ports are the target",
    );
    table.sends(&with(0x46, &options(4)), "header of 24 bytes");
    table.sends(
        &with(0x46, &[0xe1; 4]),
        "header of 24 bytes, which ends the frame",
    );
    table.sends(
        &with(0x46, &[0xe1; 3]),
        "header of 24 bytes, one past the frame",
    );
    table.sends(&with(0x4f, &options(40)), "header of 60 bytes");
    table.sends(&with(0x4f, &[]), "header of 60 bytes, past the frame");
    table.sends(
        &packet(0x4f, 17, GATEWAY_IP, &[]),
        "the same to the gateway",
    );
    table.sends(&with(0x55, &datagram), "version 5");
    table.close(
        "udp_headers",
        "`ip_hlen` and `ip_payload` before `handle_udp`",
    );
}

fn dhcp_rows(table: &mut Table) {
    let message = dhcp_message(&[53, 1, 1, 255]);
    let cut_to = |len: usize| dhcp_frame(&message[..len]);
    table.sends(&cut_to(239), "239 bytes: the xid is not taken");
    table.sends(&cut_to(240), "240 bytes: the xid is taken");
    table.sends(&dhcp_frame(&over(&message, 0, &[2])), "first byte 2");
    table.sends(&dhcp_frame(&over(&message, 0, &[0])), "first byte 0");
    for at in 236..240 {
        let spoiled = over(&message, at, &[message[at] ^ 1]);
        table.sends(
            &dhcp_frame(&spoiled),
            &format!("another cookie, byte {at}: the xid is taken"),
        );
    }
    for kind in [0, 2, 5, 8, 255] {
        let frame = dhcp_frame(&dhcp_message(&[53, 1, kind, 255]));
        table.sends(&frame, &format!("type {kind}"));
    }
    table.sends(&dhcp_frame(&dhcp_message(&[53, 1])), "D2: the type is cut");
    table.sends(&dhcp_frame(&dhcp_message(&[53])), "D3");
    table.sends(&dhcp_frame(&dhcp_message(&[53, 0])), "D6");
    table.sends(&dhcp_frame(&dhcp_message(&[255, 53, 1, 1])), "D7");
    let whole = dhcp_frame(&message);
    table.sends(
        &over(&whole, 38, &250u16.to_be_bytes()),
        "the type is cut by the length field",
    );
    table.sends(
        &over(&whole, 38, &249u16.to_be_bytes()),
        "the option's length is cut by the length field",
    );
    table.sends(
        &over(&whole, 38, &247u16.to_be_bytes()),
        "the length field leaves 239 bytes",
    );
    table.close("dhcp", "`handle_dhcp` where it sends nothing");
}

fn dhcp_reply_rows(table: &mut Table) {
    let discover = dhcp_frame(&dhcp_message(&[53, 1, 1, 255]));
    table.sends_with(RECORD_MAC, 0, 1, &discover, "D0, D1: an offer");
    table.sends(&dhcp_frame(&dhcp_message(&[53, 1, 3])), "a request");
    table.sends(&dhcp_frame(&dhcp_message(&[53, 0, 53, 1, 3])), "D4");
    table.sends(&dhcp_frame(&dhcp_message(&[0, 0, 53, 5, 1])), "D5");
    table.sends(&over(&discover, 30, &GATEWAY_IP), "to the gateway");
    table.sends(&over(&discover, 38, &[0xff, 0xff]), "length field 65,535");
    table.sends_with(
        OTHER_MAC,
        5,
        65_535,
        &discover,
        "another record, counter 65,535",
    );
    let mut other_fields = dhcp_message(&[53, 1, 1, 255]);
    for (at, byte) in other_fields.iter_mut().enumerate().skip(1).take(39) {
        *byte = 0xc0 + at as u8;
    }
    table.sends(
        &dhcp_frame(&other_fields),
        "of the fields only first byte, xid and cookie are looked at",
    );
    table.close("dhcp_replies", "`send_dhcp_reply`");
}

fn type_rows(table: &mut Table) {
    table.types_of(&[], "no byte");
    table.types_of(&[&[0; 236][..], &[53, 1, 1]].concat(), "239 bytes");
    table.types_of(&[&[0; 239][..], &[53]].concat(), "240 bytes");
    table.types_of(&[&[0; 239][..], &[53, 1, 1]].concat(), "a type at 239");
    table.types(&[53, 1, 1], "a type at 240");
    table.types(&[255, 53, 1, 1], "END, and a type at 241");
    table.types(
        &[255, 0, 53, 1, 1],
        "END, and a type where END would be an option of length 0",
    );
    table.types(&[0, 53, 1, 7], "a pad");
    table.types(&[0, 0, 0], "pads alone");
    table.types(&[0, 255, 53, 1, 1], "a pad, then END");
    table.types(&[255], "END alone");
    table.types(&[12], "a code as last byte");
    table.types(&[53], "53 as last byte");
    table.types(&[53, 1], "the type is not there");
    table.types(&[53, 255], "the type is not there, length 255");
    table.types(&[53, 0], "53 of length 0");
    table.types(&[53, 0, 53, 1, 3], "53 of length 0, then a type");
    table.types(&[53, 2, 7, 9], "53 of length 2");
    table.types(&[53, 255, 8], "53 of length 255, its first byte there");
    table.types(&[53, 1, 0], "type 0");
    table.types(&[53, 1, 255], "type 255");
    table.types(&[53, 1, 4, 53, 1, 5], "the first of two");
    table.types(&[12, 0, 53, 1, 4], "an option of length 0 before");
    table.types(
        &[12, 3, 53, 1, 1, 53, 1, 4],
        "a type inside another's value",
    );
    table.types(&[12, 3, 53, 1, 1], "an option that ends the message");
    table.types(&[12, 4, 53, 1, 1], "an option one past the message");
    table.types(&[12, 255, 53, 1, 1], "an option far past the message");
    table.types(
        &[52, 1, 1, 54, 1, 2, 254, 1, 3, 1, 1, 4],
        "52, 54, 254 and 1",
    );
    table.types(
        &[52, 1, 1, 0, 54, 1, 2, 53, 1],
        "behind others and a pad the type is not there",
    );
    let long = [&[61, 255][..], &[0; 255], &[53, 1, 6]].concat();
    table.types(&long, "an option of length 255 before");
    table.close("message_types", "`message_type`");
}

fn sum_rows(table: &mut Table) {
    table.sums(&[], "no byte");
    table.sums(&[0x01], "one byte");
    table.sums(&[0x00, 0x01], "two");
    table.sums(&[0x12, 0x34, 0x56], "three");
    table.sums(&[0xff, 0xff], "a sum of 65,535 is not folded");
    table.sums(&[0xff, 0xff, 0x00, 0x01], "a sum of 65,536 is folded");
    table.sums(&[0xff, 0xff, 0xff, 0xff, 0x00, 0x01], "folded twice");
    table.sums(&[0xff, 0xff, 0xff, 0xff, 0x00], "odd, folded");
    table.sums(&[0xff, 0xff, 0x01], "folded through its odd byte");
    table.sums(
        &[0x0a, 0, 0x02, 0x02, 0x0a, 0, 0x02, 0x0f, 0, 6, 0, 20],
        "even, with zeros",
    );
    table.sums(&[0xff; 40], "40 bytes of ones");
    table.close("checksums", "`checksum`");
}

fn frame_rows(table: &mut Table) {
    let ends = (
        SENDER_MAC,
        [0xb1, 0xb2, 0xb3, 0xb4],
        [0xb5, 0xb6, 0xb7, 0xb8],
    );
    let gateway = (OTHER_MAC, GATEWAY_IP, GUEST_IP);
    let mut frames = |counter, ends, proto, payload: &[u8], remark: &str| {
        let row = table.oracle.frames(counter, ends, proto, payload);
        table.row(row, remark);
    };
    frames(0x1234, ends, 0x99, &[], "no payload");
    frames(0x1234, ends, 0x99, &[0xc1], "one byte");
    frames(1, gateway, 17, &[0xc1, 0xc2], "two");
    frames(0, gateway, 0, &[0xc1, 0xc2, 0xc3], "counter 0");
    frames(
        65_535,
        gateway,
        255,
        &[],
        "counter 65,535, which goes on at 0",
    );
    frames(
        255,
        ([0; 6], [0; 4], [0; 4]),
        0,
        &[0; 300],
        "a length of two bytes",
    );
    frames(255, ([0xff; 6], [0xff; 4], [0xff; 4]), 0xff, &[], "ones");
    frames(2, gateway, 1, &vec![0; 65_515], "the longest");
    frames(2, gateway, 1, &vec![0; 65_516], "one byte more");
    table.close("ip_frames", "`make_ip_frame`");
}

fn datagram_rows(table: &mut Table) {
    let mut datagrams = |src, dst, data: &[u8], remark: &str| {
        let row = table.oracle.datagrams(src, dst, data);
        table.row(row, remark);
    };
    datagrams(0x0102, 0x0304, &[], "no data");
    datagrams(68, 67, &[0xd1], "one byte");
    datagrams(0, 65_535, &[0xd1, 0xd2], "two");
    datagrams(65_535, 0, &[0; 300], "a length of two bytes");
    datagrams(
        1,
        2,
        &vec![0; 65_528],
        "one byte more than a datagram holds",
    );
    table.close("udp_payloads", "`make_udp_payload`");
}

fn segment_rows(table: &mut Table) {
    let source = ([0xb1, 0xb2, 0xb3, 0xb4], 0x0102);
    let target = ([0xb5, 0xb6, 0xb7, 0xb8], 0x0304);
    let numbers = (0x1122_3344, 0x5566_7788);
    let mut segments = |counter, numbers, flags, data: &[u8], remark: &str| {
        let row = table
            .oracle
            .segments(counter, SENDER_MAC, source, target, numbers, flags, data);
        table.row(row, remark);
    };
    segments(7, numbers, 0x02, &[], "SYN");
    segments(7, numbers, 0x12, &[], "SYN and ACK");
    segments(7, numbers, 0x10, &[], "ACK");
    segments(7, numbers, 0, &[], "no flag");
    segments(7, numbers, 0xff, &[], "every flag");
    segments(7, numbers, 0xfd, &[], "every flag but SYN");
    segments(7, numbers, 0x10, &[0xd1], "one byte");
    segments(7, numbers, 0x18, &[0xd1, 0xd2], "two");
    segments(7, numbers, 0x10, &[0xd1, 0xd2, 0xd3, 0xd4, 0xd5], "five");
    segments(7, numbers, 0x02, &[0xd1], "SYN and a byte");
    segments(
        65_535,
        (0, 0xffff_ffff),
        0x11,
        &[0xff; 6],
        "counter 65,535, which goes on at 0",
    );
    segments(0, (0xffff_ffff, 0), 0x04, &[], "counter 0");
    table.close("tcp_frames", "`make_tcp_frame`");
}

fn reply_rows(table: &mut Table) {
    for (xid, mac, message_type, remark) in [
        (0x1122_3344, RECORD_MAC, 2, "an offer"),
        (0x1122_3344, RECORD_MAC, 5, "an acknowledgement"),
        (0xa1a2_a3a4, SENDER_MAC, 0, "type 0"),
        (0xffff_ffff, [0xff; 6], 255, "ones"),
        (0, [0; 6], 1, "zeros"),
        (
            0x0100_0000,
            OTHER_MAC,
            5,
            "an xid whose first byte alone is 1",
        ),
    ] {
        let row = table.oracle.replies(xid, mac, message_type);
        table.row(row, remark);
    }
    table.close("dhcp_messages", "`build_reply`");
}
