// The library with one fault around it, chosen by number: what each harness has to catch. Without a fault (0) it is the library.
#include "../include/yavoledu.h"
#include <string.h>

enum {
    NONE,
    MAKER_READS_PAST_THE_MAC,
    MAKER_READS_BEFORE_THE_GATEWAY,
    MAKER_READS_PAST_THE_MASK,
    MAKER_WRITES_PAST_THE_RECORD,
    MAKER_WRITES_ON_A_BAD_RECORD,
    MAKER_LEAVES_THE_XID,
    MAKER_GOES_BY_WHAT_STOOD_THERE,
    MAKER_LOOKS_AT_A_LEASE_NOT_NAMED,
    MAKER_REFUSES_A_PREFIX_OF_30,
    READS_PAST_THE_FRAME,
    READS_BEFORE_THE_FRAME,
    READS_PAST_A_CUT_TYPE,
    WRITES_TO_THE_FRAME,
    WRITES_PAST_THE_ROOM,
    WRITES_BEFORE_THE_REPLY,
    WRITES_PAST_N,
    WRITES_ON_NO_ROOM,
    WRITES_ON_A_DROP,
    LEAVES_A_BYTE_UNWRITTEN,
    GOES_BY_A_STALE_BYTE,
    SPENDS_THE_ID_ON_NO_ROOM,
    TAKES_THE_XID_ON_A_CUT_TYPE,
    SPENDS_THE_ID_ON_A_DROP,
    CHANGES_THE_MAC,
    CHANGES_THE_NETWORK,
    ANSWERS_FOR_ANOTHER_GATEWAY,
    ANSWERS_WITH_A_MASK_OF_24,
    READS_PAST_THE_RECORD,
    READS_BEFORE_THE_RECORD,
    WRITES_A_THIRD_VALUE,
    WRITES_BEFORE_THE_VALUES,
    LEAVES_THE_VALUES_ON_A_DROP,
    HANDS_ON_DATA_PAST_THE_FRAME,
    READS_THE_LAST_CALLS_FRAME,
    BUILDER_READS_PAST_THE_PAYLOAD,
    BUILDER_READS_PAST_THE_MAC,
    BUILDER_READS_BEFORE_THE_TARGET,
    BUILDER_SPENDS_THE_ID_ON_TOO_LONG,
    BUILDER_WRITES_PAST_THE_DATAGRAM,
    BUILDER_READS_BEFORE_THE_DATAGRAMS_SOURCE,
    BUILDER_READS_PAST_THE_DATAGRAMS_TARGET,
    BUILDER_READS_PAST_THE_DATA,
    BUILDER_SENDS_A_CHECKSUM_OF_0,
    CHECKSUM_READS_A_WHOLE_LAST_WORD,
    READER_READS_PAST_THE_FRAME,
    READER_WRITES_PARTS_OUTSIDE,
    READER_WRITES_A_FOURTEENTH_PART,
    READER_REFUSES_DHCP,
    READER_TAKES_64_KB_MORE,
    SEND_TAKES_64_KB_MORE,
    SHARES_THE_ID,
    BUILDS_IN_SHARED_MEMORY,
};

// In the order of the numbers: the name, and the harnesses that have to catch it.
struct {
    const char *name, *harnesses;
} const hard_faults[] = {
    {"none", ""},
    {"maker_reads_past_the_mac", "guards memory"},
    {"maker_reads_before_the_gateway", "guards memory"},
    {"maker_reads_past_the_mask", "guards memory"},
    {"maker_writes_past_the_record", "guards memory"},
    {"maker_writes_on_a_bad_record", "guards memory"},
    {"maker_leaves_the_xid", "guards memory"},
    {"maker_goes_by_what_stood_there", "guards memory stack_answer"},
    {"maker_looks_at_a_lease_not_named", "guards memory"},
    {"maker_refuses_a_prefix_of_30", "guards memory"},
    {"reads_past_the_frame", "guards memory"},
    {"reads_before_the_frame", "guards memory"},
    {"reads_past_a_cut_type", "guards memory"},
    // The byte that stands there, so that nothing changes.
    {"writes_to_the_frame", "guards"},
    {"writes_past_the_room", "guards memory"},
    {"writes_before_the_reply", "guards memory"},
    {"writes_past_n", "guards memory"},
    {"writes_on_no_room", "guards memory"},
    {"writes_on_a_drop", "guards memory"},
    {"leaves_a_byte_unwritten", "guards memory"},
    {"goes_by_a_stale_byte", "guards memory"},
    {"spends_the_id_on_no_room", "guards memory"},
    {"takes_the_xid_on_a_cut_type", "guards memory"},
    {"spends_the_id_on_a_drop", "guards memory"},
    {"changes_the_mac", "guards memory"},
    {"changes_the_network", "guards memory"},
    {"answers_for_another_gateway", "guards memory"},
    {"answers_with_a_mask_of_24", "guards memory"},
    {"reads_past_the_record", "guards memory"},
    {"reads_before_the_record", "guards memory"},
    {"writes_a_third_value", "guards memory"},
    {"writes_before_the_values", "guards memory"},
    {"leaves_the_values_on_a_drop", "guards memory"},
    {"hands_on_data_past_the_frame", "guards memory"},
    // Where memory is lent again and not freed this is no fault that shows.
    {"reads_the_last_calls_frame", "memory"},
    {"builder_reads_past_the_payload", "guards memory"},
    {"builder_reads_past_the_mac", "guards memory"},
    {"builder_reads_before_the_target", "guards memory"},
    {"builder_spends_the_id_on_too_long", "guards memory"},
    {"builder_writes_past_the_datagram", "guards memory"},
    {"builder_reads_before_the_datagrams_source", "guards memory"},
    {"builder_reads_past_the_datagrams_target", "guards memory"},
    {"builder_reads_past_the_data", "guards memory"},
    {"builder_sends_a_checksum_of_0", "guards memory"},
    {"checksum_reads_a_whole_last_word", "guards memory"},
    {"reader_reads_past_the_frame", "guards memory"},
    {"reader_writes_parts_outside", "guards memory stack_answer"},
    {"reader_writes_a_fourteenth_part", "guards memory"},
    {"reader_refuses_dhcp", "guards memory stack_answer"},
    {"reader_takes_64_kb_more", "stack_overflow"},
    {"send_takes_64_kb_more", "stack_overflow"},
    {"shares_the_id", "threads"},
    {"builds_in_shared_memory", "threads"},
};
const size_t hard_faults_len = sizeof hard_faults / sizeof *hard_faults;
size_t hard_fault = NONE;

// What is read is used, since valgrind leaves out a load whose value nothing uses.
static volatile uint8_t used;
static void touch(const volatile uint8_t *at) { used = *at; }

// Not a change of what stands there, since valgrind counts an unwritten byte that is changed as unwritten.
static void spoil(volatile uint8_t *at) { *at = 0x5a; }

uint32_t faulty_yavoledu_make_guest(yavoledu_guest *guest, const uint8_t mac[6], const uint8_t gateway[4], const uint8_t guest_ip[4],
                                    const uint8_t mask[4], uint32_t lease_named, uint32_t lease) {
    uint32_t xid = guest->xid;
    switch (hard_fault) {
    case MAKER_READS_PAST_THE_MAC: touch(mac + 6); break;
    case MAKER_READS_BEFORE_THE_GATEWAY: touch(gateway - 1); break;
    case MAKER_READS_PAST_THE_MASK: touch(mask + 4); break;
    case MAKER_WRITES_PAST_THE_RECORD: spoil((uint8_t *)(guest + 1)); break;
    case MAKER_GOES_BY_WHAT_STOOD_THERE: if (guest->network.lease == 0) return YAVOLEDU_BAD_RECORD; break;
    case MAKER_LOOKS_AT_A_LEASE_NOT_NAMED: if (lease) lease_named = 1; break;
    case MAKER_REFUSES_A_PREFIX_OF_30: if (mask[3] == 0xfc) return YAVOLEDU_BAD_RECORD; break;
    }
    uint32_t number = yavoledu_make_guest(guest, mac, gateway, guest_ip, mask, lease_named, lease);
    switch (hard_fault) {
    case MAKER_WRITES_ON_A_BAD_RECORD: if (number == YAVOLEDU_BAD_RECORD) guest->mac[0] ^= 1; break;
    case MAKER_LEAVES_THE_XID: guest->xid = xid; break;
    }
    return number;
}

// Stack that is in use while the function is called. As functions of their own, so that no other fault takes it.
#define MORE_STACK (64 * 1024)
static void use_stack(volatile uint8_t *more) {
    for (size_t at = 0; at < MORE_STACK; at++) spoil(more + at);
}

__attribute__((noinline)) static uint32_t send_with_more_stack(yavoledu_guest *guest, const uint8_t *frame, size_t frame_len,
                                                               uint8_t *reply, size_t reply_len, size_t values[2]) {
    volatile uint8_t more[MORE_STACK];
    use_stack(more);
    uint32_t number = yavoledu_send(guest, frame, frame_len, reply, reply_len, values);
    touch(more);
    return number;
}

__attribute__((noinline)) static uint32_t read_with_more_stack(const uint8_t *frame, size_t frame_len, size_t parts[13]) {
    volatile uint8_t more[MORE_STACK];
    use_stack(more);
    uint32_t kind = yavoledu_read(frame, frame_len, parts);
    touch(more);
    return kind;
}

static uint32_t with_unwritten_byte(yavoledu_guest *guest, const uint8_t *frame, size_t frame_len, uint8_t *reply, size_t reply_len,
                                    size_t values[2]) {
    static uint8_t built[1 << 17];
    uint32_t number = yavoledu_send(guest, frame, frame_len, built, reply_len, values);
    if (number == YAVOLEDU_REPLY) {
        memcpy(reply, built, values[0] - 1);
    }
    return number;
}

// The network is the record's again behind the call.
static uint32_t with_network(yavoledu_network network, yavoledu_guest *guest, const uint8_t *frame, size_t frame_len, uint8_t *reply,
                             size_t reply_len, size_t values[2]) {
    yavoledu_network own = guest->network;
    guest->network = network;
    uint32_t number = yavoledu_send(guest, frame, frame_len, reply, reply_len, values);
    guest->network = own;
    return number;
}

static uint32_t in_shared_memory(yavoledu_guest *guest, const uint8_t *frame, size_t frame_len, uint8_t *reply, size_t reply_len,
                                 size_t values[2]) {
    static uint8_t built[1 << 17];
    uint32_t number = yavoledu_send(guest, frame, frame_len, built, reply_len, values);
    if (number == YAVOLEDU_REPLY) {
        memcpy(reply, built, values[0]);
    }
    return number;
}

static uint32_t with_shared_id(yavoledu_guest *guest, const uint8_t *frame, size_t frame_len, uint8_t *reply, size_t reply_len,
                               size_t values[2]) {
    static uint16_t id = 1;
    guest->id = id;
    uint32_t number = yavoledu_send(guest, frame, frame_len, reply, reply_len, values);
    id = guest->id;
    return number;
}

uint32_t faulty_yavoledu_send(yavoledu_guest *guest, const uint8_t *frame, size_t frame_len, uint8_t *reply, size_t reply_len,
                              size_t values[2]) {
    static const uint8_t *last_frame;
    size_t values_before[2] = {0, 0};
    yavoledu_network network = guest->network;
    switch (hard_fault) {
    case ANSWERS_FOR_ANOTHER_GATEWAY:
        memcpy(network.gateway, "\x0a\x00\x02\x02", 4);
        return with_network(network, guest, frame, frame_len, reply, reply_len, values);
    case ANSWERS_WITH_A_MASK_OF_24:
        memcpy(network.mask, "\xff\xff\xff\x00", 4);
        return with_network(network, guest, frame, frame_len, reply, reply_len, values);
    case READS_PAST_THE_FRAME: touch(frame + frame_len); break;
    case READS_BEFORE_THE_FRAME: touch(frame - 1); break;
    case WRITES_TO_THE_FRAME: if (frame_len) *(volatile uint8_t *)frame = *frame; break;
    case WRITES_BEFORE_THE_REPLY: spoil(reply - 1); break;
    case READS_PAST_THE_RECORD: touch((uint8_t *)(guest + 1)); break;
    case READS_BEFORE_THE_RECORD: touch((uint8_t *)guest - 1); break;
    case GOES_BY_A_STALE_BYTE: if (reply_len && reply[reply_len - 1] == 7) frame_len = 0; break;
    case LEAVES_THE_VALUES_ON_A_DROP: memcpy(values_before, values, sizeof values_before); break;
    case READS_THE_LAST_CALLS_FRAME:
        if (last_frame) touch(last_frame);
        last_frame = frame_len ? frame : 0;
        break;
    case LEAVES_A_BYTE_UNWRITTEN: return with_unwritten_byte(guest, frame, frame_len, reply, reply_len, values);
    case BUILDS_IN_SHARED_MEMORY: return in_shared_memory(guest, frame, frame_len, reply, reply_len, values);
    case SEND_TAKES_64_KB_MORE: return send_with_more_stack(guest, frame, frame_len, reply, reply_len, values);
    case SHARES_THE_ID: return with_shared_id(guest, frame, frame_len, reply, reply_len, values);
    }
    uint32_t number = yavoledu_send(guest, frame, frame_len, reply, reply_len, values);
    switch (hard_fault) {
    case READS_PAST_A_CUT_TYPE: if (number == YAVOLEDU_CUT_TYPE) touch(frame + frame_len); break;
    case WRITES_PAST_THE_ROOM: if (number == YAVOLEDU_REPLY) spoil(reply + reply_len); break;
    case WRITES_PAST_N: if (number == YAVOLEDU_REPLY && values[0] < reply_len) spoil(reply + values[0]); break;
    case WRITES_ON_NO_ROOM: if (number == YAVOLEDU_NO_ROOM && reply_len) reply[0] = 0; break;
    case WRITES_ON_A_DROP: if (number == YAVOLEDU_DROP && reply_len) reply[reply_len - 1] = 0; break;
    case SPENDS_THE_ID_ON_NO_ROOM: if (number == YAVOLEDU_NO_ROOM) guest->id++; break;
    case TAKES_THE_XID_ON_A_CUT_TYPE: if (number == YAVOLEDU_CUT_TYPE) guest->xid++; break;
    case SPENDS_THE_ID_ON_A_DROP: if (number == YAVOLEDU_DROP) guest->id++; break;
    case CHANGES_THE_MAC: if (number == YAVOLEDU_REPLY) guest->mac[5] ^= 1; break;
    case CHANGES_THE_NETWORK: if (number == YAVOLEDU_REPLY) guest->network.lease++; break;
    case WRITES_A_THIRD_VALUE: spoil((uint8_t *)(values + 2)); break;
    case WRITES_BEFORE_THE_VALUES: spoil((uint8_t *)values - 1); break;
    case LEAVES_THE_VALUES_ON_A_DROP: if (number == YAVOLEDU_DROP) memcpy(values, values_before, sizeof values_before); break;
    case HANDS_ON_DATA_PAST_THE_FRAME: if (number == YAVOLEDU_RELAY) values[1]++; break;
    }
    return number;
}

uint32_t faulty_yavoledu_make_ip_frame(uint16_t *id, const uint8_t dst_mac[6], const uint8_t src_ip[4], const uint8_t dst_ip[4],
                                       uint8_t proto, const uint8_t *payload, size_t payload_len, uint8_t *out, size_t out_len,
                                       size_t values[2]) {
    switch (hard_fault) {
    case BUILDER_READS_PAST_THE_PAYLOAD: touch(payload + payload_len); break;
    case BUILDER_READS_PAST_THE_MAC: touch(dst_mac + 6); break;
    }
    return yavoledu_make_ip_frame(id, dst_mac, src_ip, dst_ip, proto, payload, payload_len, out, out_len, values);
}

uint32_t faulty_yavoledu_make_udp_payload(const uint8_t src_ip[4], uint16_t src_port, const uint8_t dst_ip[4], uint16_t dst_port,
                                          const uint8_t *data, size_t data_len, uint8_t *out, size_t out_len, size_t values[2]) {
    switch (hard_fault) {
    case BUILDER_READS_BEFORE_THE_DATAGRAMS_SOURCE: touch(src_ip - 1); break;
    case BUILDER_READS_PAST_THE_DATAGRAMS_TARGET: touch(dst_ip + 4); break;
    case BUILDER_READS_PAST_THE_DATA: if (data_len % 2) touch(data + data_len); break;
    }
    uint32_t number = yavoledu_make_udp_payload(src_ip, src_port, dst_ip, dst_port, data, data_len, out, out_len, values);
    if (number != YAVOLEDU_REPLY) return number;
    switch (hard_fault) {
    case BUILDER_WRITES_PAST_THE_DATAGRAM: if (values[0] < out_len) spoil(out + values[0]); break;
    case BUILDER_SENDS_A_CHECKSUM_OF_0: if (out[6] == 0xff && out[7] == 0xff) memset(out + 6, 0, 2); break;
    }
    return number;
}

uint32_t faulty_yavoledu_make_tcp_frame(uint16_t *id, const uint8_t dst_mac[6], const uint8_t src_ip[4], uint16_t src_port,
                                        const uint8_t dst_ip[4], uint16_t dst_port, uint32_t seq, uint32_t ack, uint8_t flags,
                                        const uint8_t *data, size_t data_len, uint8_t *out, size_t out_len, size_t values[2]) {
    if (hard_fault == BUILDER_READS_BEFORE_THE_TARGET) touch(dst_ip - 1);
    uint32_t number =
        yavoledu_make_tcp_frame(id, dst_mac, src_ip, src_port, dst_ip, dst_port, seq, ack, flags, data, data_len, out, out_len, values);
    if (hard_fault == BUILDER_SPENDS_THE_ID_ON_TOO_LONG && number == YAVOLEDU_TOO_LONG) ++*id;
    return number;
}

uint16_t faulty_yavoledu_checksum(const uint8_t *data, size_t data_len) {
    if (hard_fault == CHECKSUM_READS_A_WHOLE_LAST_WORD && data_len % 2) touch(data + data_len);
    return yavoledu_checksum(data, data_len);
}

uint32_t faulty_yavoledu_read(const uint8_t *frame, size_t frame_len, size_t parts[13]) {
    if (hard_fault == READER_TAKES_64_KB_MORE) return read_with_more_stack(frame, frame_len, parts);
    if (hard_fault == READER_READS_PAST_THE_FRAME) touch(frame + frame_len);
    size_t apart[13];
    if (hard_fault == READER_REFUSES_DHCP && yavoledu_read(frame, frame_len, apart) == YAVOLEDU_KIND_DHCP) return YAVOLEDU_OUTSIDE;
    uint32_t kind = yavoledu_read(frame, frame_len, parts);
    switch (hard_fault) {
    case READER_WRITES_PARTS_OUTSIDE: if (kind == YAVOLEDU_OUTSIDE) parts[12] = 0; break;
    case READER_WRITES_A_FOURTEENTH_PART: if (kind != YAVOLEDU_OUTSIDE) spoil((uint8_t *)(parts + 13)); break;
    }
    return kind;
}
