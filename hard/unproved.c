// Nothing calls it any more: today's functions take pointer and length, and hard/unproved_main.rt.txt stands in its place.
// The library's functions around code with no proof, under the names that start with guiding_. rt makes such functions only of a proved library; in
// the module of a program the same functions take a slice as the address of its own address and length. Used by hard/guiding-object alone.
// The kit's clang has no headers, so include/yavoledu.h's types are said here.
typedef unsigned char uint8_t;
typedef unsigned short uint16_t;
typedef unsigned int uint32_t;
typedef __SIZE_TYPE__ size_t;
typedef struct yavoledu_guest yavoledu_guest;

typedef struct {
    const void *at;
    size_t len;
} Slice;

#define WITHIN(name) __asm__("unproved::" name)
uint32_t make_guest_within(yavoledu_guest *, const void *, const void *, const void *, const void *, uint32_t, uint32_t) WITHIN("maker::yavoledu_make_guest");
uint32_t send_within(yavoledu_guest *, Slice *, Slice *, size_t *) WITHIN("entry::yavoledu_send");
uint32_t ip_frame_within(uint16_t *, const void *, const void *, const void *, uint8_t, Slice *, Slice *, size_t *) WITHIN("builders::yavoledu_make_ip_frame");
uint32_t udp_payload_within(const void *, uint16_t, const void *, uint16_t, Slice *, Slice *, size_t *) WITHIN("builders::yavoledu_make_udp_payload");
uint32_t tcp_frame_within(uint16_t *, const void *, const void *, uint16_t, const void *, uint16_t, uint32_t, uint32_t, uint8_t, Slice *, Slice *, size_t *) WITHIN("builders::yavoledu_make_tcp_frame");
uint16_t checksum_within(Slice *) WITHIN("builders::yavoledu_checksum");
uint32_t read_within(Slice *, size_t *) WITHIN("reading::yavoledu_read");

uint32_t guiding_yavoledu_make_guest(yavoledu_guest *guest, const uint8_t mac[6], const uint8_t gateway[4], const uint8_t guest_ip[4],
                                     const uint8_t mask[4], uint32_t lease_named, uint32_t lease) {
    return make_guest_within(guest, mac, gateway, guest_ip, mask, lease_named, lease);
}

uint32_t guiding_yavoledu_send(yavoledu_guest *guest, const uint8_t *frame, size_t frame_len, uint8_t *reply, size_t reply_len, size_t values[2]) {
    Slice in = {frame, frame_len}, out = {reply, reply_len};
    return send_within(guest, &in, &out, values);
}

uint32_t guiding_yavoledu_make_ip_frame(uint16_t *id, const uint8_t dst_mac[6], const uint8_t src_ip[4], const uint8_t dst_ip[4], uint8_t proto,
                                        const uint8_t *payload, size_t payload_len, uint8_t *reply, size_t reply_len, size_t values[2]) {
    Slice in = {payload, payload_len}, out = {reply, reply_len};
    return ip_frame_within(id, dst_mac, src_ip, dst_ip, proto, &in, &out, values);
}

uint32_t guiding_yavoledu_make_udp_payload(const uint8_t src_ip[4], uint16_t src_port, const uint8_t dst_ip[4], uint16_t dst_port,
                                           const uint8_t *data, size_t data_len, uint8_t *reply, size_t reply_len, size_t values[2]) {
    Slice in = {data, data_len}, out = {reply, reply_len};
    return udp_payload_within(src_ip, src_port, dst_ip, dst_port, &in, &out, values);
}

uint32_t guiding_yavoledu_make_tcp_frame(uint16_t *id, const uint8_t dst_mac[6], const uint8_t src_ip[4], uint16_t src_port, const uint8_t dst_ip[4],
                                         uint16_t dst_port, uint32_t seq, uint32_t ack, uint8_t flags, const uint8_t *data, size_t data_len,
                                         uint8_t *reply, size_t reply_len, size_t values[2]) {
    Slice in = {data, data_len}, out = {reply, reply_len};
    return tcp_frame_within(id, dst_mac, src_ip, src_port, dst_ip, dst_port, seq, ack, flags, &in, &out, values);
}

uint16_t guiding_yavoledu_checksum(const uint8_t *data, size_t data_len) {
    Slice in = {data, data_len};
    return checksum_within(&in);
}

uint32_t guiding_yavoledu_read(const uint8_t *frame, size_t frame_len, size_t parts[13]) {
    Slice in = {frame, frame_len};
    return read_within(&in, parts);
}
