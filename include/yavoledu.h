/* Yavoledu: the part of a guest network that a guest can reach with one frame, proved. See README.md.
 *
 * No function here asks anything of its arguments but that they are there, as references in Rust are:
 *   - a pointer with a length leads to that many bytes; it is not null, also where the length is 0. Any length will do;
 *   - it is aligned as its type is in C;
 *   - what is written is no part of anything else that is lent: a reply does not overlap its frame, nor out its payload, nor a store its frame.
 *     (The id and the MAC of one record, lent to a builder, do not overlap; a record and its own MAC, lent to make it anew, do.)
 * What is lent to be written may hold anything. No function allocates, keeps what it is lent, has data of its own, or
 * calls anything but memcpy, memmove and memset; any number of threads may call at once that lend different memory.
 * yavoledu_read wants 64 kB of stack, every other less than 1 kB. docs/LOOPS.md has the bound of every loop, and how many
 * turns a call takes at most.
 *
 * Numbers are the machine's own, ports, sequence numbers, ids and checksums too: do not call htons. Addresses and MACs
 * are bytes in the order of the wire.
 *
 * The number that yavoledu_send and the builders answer is document 01's (the customer's), and so are its values:
 *
 *   number              values[0]              values[1]    changed, besides values
 *   0 drop              0                      0            at most the xid
 *   1 reply             bytes of it, n         0            the first n bytes of the reply; the id on IPv4; the xid on DHCP
 *   2 DNS               start of the data      its length   nothing
 *   3 relay             start of the data      its length   nothing
 *   4 TCP handoff       the frame's length     0            nothing
 *   5 no room           bytes needed           0            nothing
 *   6 too long          the length too long    0            nothing
 *   7 cut message type  place of option 53     0            nothing
 *
 * The start of 2 and 3 is counted from the frame's first byte, the place of 7 from the DHCP message's.
 */
#ifndef YAVOLEDU_H
#define YAVOLEDU_H

#include <stddef.h>
#include <stdint.h>

#ifdef __cplusplus
extern "C" {
#endif

enum {
    YAVOLEDU_DROP = 0,
    YAVOLEDU_REPLY = 1,
    YAVOLEDU_DNS = 2,
    YAVOLEDU_RELAY = 3,
    YAVOLEDU_TCP = 4,
    YAVOLEDU_NO_ROOM = 5,
    YAVOLEDU_TOO_LONG = 6,
    YAVOLEDU_CUT_TYPE = 7,
    YAVOLEDU_OUTSIDE = 8
};

/* A guest's network. Its broadcast address is the guest's address with every bit set that the mask leaves to the host. */
typedef struct {
    uint8_t gateway[4];
    uint8_t guest[4];
    uint8_t mask[4];
    uint32_t lease; /* of a DHCP reply, in seconds */
} yavoledu_network;

/* The record that the host keeps for each guest: yavoledu_make_guest makes one. Every function answers for every record,
 * with any addresses and any mask, and none but that one changes the MAC or the network. */
typedef struct {
    uint8_t mac[6];
    uint16_t id;  /* of the next IPv4 frame built for the guest */
    uint32_t xid; /* of the last DHCP message that was looked into: 240 bytes or more, first byte 1, not refused */
    yavoledu_network network;
} yavoledu_guest;

/* The state of a guest's store, in which fragments are put together: yavoledu_take and yavoledu_release read and write it.
 * Each of the six may hold any number. Lend it to yavoledu_release before the first yavoledu_take. */
typedef struct {
    uint32_t phase;    /* 0 empty, 1 filling, 2 filling with the end known; 3, and every other number, complete */
    uint32_t source;   /* the datagram's name: its addresses, the first byte the highest, */
    uint32_t target;
    uint32_t protocol; /* its protocol, by the low 8 bits, */
    uint32_t id;       /* and its id, by the low 16 */
    uint32_t end;      /* the length of its payload, by the low 16 bits, in phases 2 and 3 */
} yavoledu_state;

#if defined(__cplusplus) && __cplusplus >= 201103L
#define YAVOLEDU_HOLDS(fact) static_assert(fact, #fact)
#elif defined(__STDC_VERSION__) && __STDC_VERSION__ >= 201112L
#define YAVOLEDU_HOLDS(fact) _Static_assert(fact, #fact)
#else
#define YAVOLEDU_HOLDS(fact) struct yavoledu_not_looked_at
#endif
YAVOLEDU_HOLDS(sizeof(size_t) == 8);
YAVOLEDU_HOLDS(sizeof(yavoledu_network) == 16);
YAVOLEDU_HOLDS(offsetof(yavoledu_network, gateway) == 0);
YAVOLEDU_HOLDS(offsetof(yavoledu_network, guest) == 4);
YAVOLEDU_HOLDS(offsetof(yavoledu_network, mask) == 8);
YAVOLEDU_HOLDS(offsetof(yavoledu_network, lease) == 12);
YAVOLEDU_HOLDS(sizeof(yavoledu_guest) == 28);
YAVOLEDU_HOLDS(offsetof(yavoledu_guest, mac) == 0);
YAVOLEDU_HOLDS(offsetof(yavoledu_guest, id) == 6);
YAVOLEDU_HOLDS(offsetof(yavoledu_guest, xid) == 8);
YAVOLEDU_HOLDS(offsetof(yavoledu_guest, network) == 12);
YAVOLEDU_HOLDS(sizeof(yavoledu_state) == 6 * sizeof(uint32_t));
#undef YAVOLEDU_HOLDS

/* What yavoledu_make_guest answers: document 02's refusal, and a number of ours. */
enum {
    YAVOLEDU_BAD_RECORD = 9,
    YAVOLEDU_MADE = 24
};

/* Makes a new guest's record in the memory lent: this MAC, id 1, xid 0, these addresses and the lease time, which is `lease`
 * where lease_named is not 0, and else 86,400. It answers 24; or 9, and leaves the memory as it was, exactly where
 *   - the mask is not ones followed by zeros, with at least 8 ones and at most 30;
 *   - the two addresses are equal, or not of one network; or
 *   - one of them is the lowest or the highest address of the network.
 * Every MAC and every lease time will do. The memory has to be initialised, with anything: on 9 it is left as it was. */
uint32_t yavoledu_make_guest(yavoledu_guest *guest, const uint8_t mac[6], const uint8_t gateway[4], const uint8_t guest_ip[4],
                             const uint8_t mask[4], uint32_t lease_named, uint32_t lease);

/* What a frame of this guest gets. The data of 2 and 3 is the frame's own: frame + values[0], values[1] bytes.
 * With 65,549 bytes of room 5 is never answered, nor with frame_len + 16 and 342 at least; no reply is longer.
 * A DHCP reply goes from port 67 to port 68, to the frame's source MAC and the network's broadcast address.
 * It has a UDP checksum, as yavoledu_make_udp_payload writes it. */
uint32_t yavoledu_send(yavoledu_guest *guest, const uint8_t *frame, size_t frame_len, uint8_t *reply, size_t reply_len,
                       size_t values[2]);

/* The builders answer 1, 5 or 6. A frame takes *id, which then grows by 1 and goes from 65,535 to 0; lend it the id of
 * the guest's record. It comes from the gateway's MAC, 52:54:00:00:00:01. On 5 and 6 only values changes.
 *
 * The IPv4 frames that yavoledu_send and the builders make of one record, one after the other, carry its id at the start,
 * then that plus 1, plus 2 and so on, modulo 65,536: bytes 18 and 19 of each. Nothing else counts, ARP replies and
 * refusals among it. So two of them with the same id are a multiple of 65,536 of them apart; until the host puts another
 * record in the memory, a copy of an older one or one made anew: from there the count starts at that record's id. */

/* An IPv4 frame around a payload of at most 65,515 bytes: 34 bytes and the payload. */
uint32_t yavoledu_make_ip_frame(uint16_t *id, const uint8_t dst_mac[6], const uint8_t src_ip[4], const uint8_t dst_ip[4],
                                uint8_t proto, const uint8_t *payload, size_t payload_len, uint8_t *out, size_t out_len,
                                size_t values[2]);

/* A UDP datagram around at most 65,527 bytes of data: 8 bytes and the data. Its checksum is that of RFC 768,
 * over the pseudo-header (both addresses, 0, 17, the length), the header and the data. Where it comes to 0,
 * 0xffff is written: a checksum of 0, which says that there is none, is never sent. The addresses are no part
 * of the datagram. They have to be those of the IPv4 header around it, or else its receiver finds the
 * checksum wrong. 6, with data_len, is decided before 5, with 8 bytes more than data_len.
 * Before document 02's request 6/13 it took no addresses and wrote 0: what was compiled with that header has
 * to be compiled anew. */
uint32_t yavoledu_make_udp_payload(const uint8_t src_ip[4], uint16_t src_port, const uint8_t dst_ip[4],
                                   uint16_t dst_port, const uint8_t *data, size_t data_len, uint8_t *out,
                                   size_t out_len, size_t values[2]);

/* A TCP segment in an IPv4 frame: 54 bytes and the data. Where bit 0x02 of the flags is set, eight option bytes stand
 * before the data. At most 65,495 bytes of data, or 65,487 with the options. */
uint32_t yavoledu_make_tcp_frame(uint16_t *id, const uint8_t dst_mac[6], const uint8_t src_ip[4], uint16_t src_port,
                                 const uint8_t dst_ip[4], uint16_t dst_port, uint32_t seq, uint32_t ack, uint8_t flags,
                                 const uint8_t *data, size_t data_len, uint8_t *out, size_t out_len, size_t values[2]);

/* The checksum of RFC 1071, of any number of bytes; an odd last byte is the high half of a word. */
uint16_t yavoledu_checksum(const uint8_t *data, size_t data_len);

/* What yavoledu_read answers of a frame that the grammar derives. These are numbers of their own, not the table's. */
enum {
    YAVOLEDU_KIND_ARP = 1,
    YAVOLEDU_KIND_ICMP = 2,
    YAVOLEDU_KIND_UDP = 3,
    YAVOLEDU_KIND_DHCP = 4,
    YAVOLEDU_KIND_TCP = 5,
    YAVOLEDU_KIND_OTHER_IPV4 = 6
};

/* yavoledu_read wants 64 kB of stack (65,536 bytes): call it on a thread that has them. It reads a DHCP list of options by
 * calls inside calls, at most 2,465 deep, and the guest chooses how deep by what it sends. Measured are 39,512 bytes on
 * x86-64, on the deepest list (docs/BENCHMARKS.md, of the older kit); every other call here takes less than 1 kB.
 *
 * The strict reader (crates/grammar/specs/Grammar.antt is the grammar): the frame's kind, or YAVOLEDU_OUTSIDE, document
 * 01's 8, on which parts is left as it was. parts has three places for each layer, counted from the frame's first byte:
 * where its header starts, where that stops and its payload starts, where the payload stops. At 0 Ethernet; at 3 IPv4;
 * at 6 ICMP, UDP or TCP; at 9 the DHCP message, whose payload is its options; at 12 the DHCP message type. What a kind
 * doesn't have is 0. */
uint32_t yavoledu_read(const uint8_t *frame, size_t frame_len, size_t parts[13]);

/* What the calls on a store answer: document 02's refusals, in the order of their tests, and four numbers of ours. */
enum {
    YAVOLEDU_UNFIT = 10,     /* the store is lent at another size, the frame is no IPv4 packet with a sound header, or its
                              * fragment has a bad length or goes past 65,515 */
    YAVOLEDU_HELD = 11,      /* the store holds a complete datagram, or another one */
    YAVOLEDU_OVERLAP = 12,   /* a block of eight bytes is already there */
    YAVOLEDU_WRONG_END = 13, /* a second last, a fragment past the known end, or a last before a stored block */
    YAVOLEDU_PASSED = 20,
    YAVOLEDU_STORED = 21,
    YAVOLEDU_COMPLETE = 22,
    YAVOLEDU_RELEASED = 23
};

/* The size of a store, in bytes and in words of 64 bits. At every other size both calls answer 10. */
enum {
    YAVOLEDU_STORE_BYTES = 65515,
    YAVOLEDU_STORE_WORDS = 128
};

/* Reassembly of IPv4 fragments. A host keeps for each guest a store: a state, 65,515 bytes for the payload of one datagram,
 * and 128 words with a bit for each eight of them. bytes_len counts bytes and bits_len words. No call looks at a byte that
 * no fragment has put there, so only state and bits have to be empty before the first frame: yavoledu_release does that.
 *
 *   answer            payload[0]   payload[1]   changed, besides payload
 *   20 passed         its start    its length   nothing
 *   21 stored         0            0            the state; the fragment's bytes, at its offset, and its bits
 *   22 complete       0            its length   the same
 *   23 released       -            -            the state and the bits, which are then all 0
 *   10, 11, 12, 13    0            0            nothing
 *
 * On 20 the frame holds a whole datagram, whose payload is the frame's own: frame + payload[0], payload[1] bytes. On 22 the
 * datagram that the state names is complete, and its payload is the store's first payload[1] bytes; it stands until it is
 * released. (Where the state lent is none that a call has left, its end may be past the store; then payload[1] is 0.)
 * yavoledu_send looks at no store: lend it no fragment, since it takes each for a whole datagram. What to do with a payload
 * that was put together, the host decides. */

/* Takes a guest's frame into its store. A fragment costs its own bytes and a pass over the 128 words, at any offset. */
uint32_t yavoledu_take(yavoledu_state *state, const uint8_t *frame, size_t frame_len, uint8_t *bytes, size_t bytes_len,
                       uint64_t *bits, size_t bits_len, size_t payload[2]);

/* Empties the store, at any time: 23, or 10 where it is lent at another size. The bytes are left as they are. */
uint32_t yavoledu_release(yavoledu_state *state, const uint8_t *bytes, size_t bytes_len, uint64_t *bits, size_t bits_len);

#ifdef __cplusplus
}
#endif

#endif
