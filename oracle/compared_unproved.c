// Nothing calls it any more: today's functions take pointer and length, and compared_main.rt.txt stands in its place.
// The functions that compared.rt.txt exports, around code with no proof. rt makes these only of a proved library; in the module of a
// program the same functions take a slice as the address of its own address and length. Used by oracle/unproved-object alone.
typedef struct {
    const void *at;
    unsigned long len;
} Slice;

#define WITHIN(name) __asm__("unproved::" name)
unsigned handle_within(void *, void *, void *, void *, Slice *, Slice *, void *) WITHIN("compared_handle");
unsigned ip_frame_within(void *, void *, void *, void *, const void *, const void *, const void *, unsigned char, Slice *, Slice *, void *) WITHIN("compared_ip_frame");
unsigned udp_payload_within(const void *, unsigned short, const void *, unsigned short, Slice *, Slice *, void *) WITHIN("compared_udp_payload");
unsigned tcp_frame_within(void *, void *, void *, void *, const void *, const void *, unsigned short, const void *, unsigned short, unsigned, unsigned, unsigned char, Slice *, Slice *, void *) WITHIN("compared_tcp_frame");
unsigned dhcp_reply_within(const void *, unsigned, const void *, unsigned char, Slice *, void *) WITHIN("compared_dhcp_reply");
unsigned message_type_within(Slice *, void *) WITHIN("compared_message_type");
unsigned short checksum_within(Slice *) WITHIN("compared_checksum");
unsigned short sum_within(unsigned short, Slice *) WITHIN("compared_sum");
unsigned short plain_within(unsigned short, Slice *) WITHIN("compared_plain");
unsigned make_within(void *, void *, void *, void *, unsigned) WITHIN("compared_make");
unsigned make_over_within(void *, void *, void *, void *, const void *, const void *, unsigned) WITHIN("compared_make_over");

unsigned compared_handle(void *mac, void *id, void *xid, void *network, const void *frame, unsigned long frame_len, void *reply, unsigned long room,
                         void *values) {
    Slice in = {frame, frame_len}, out = {reply, room};
    return handle_within(mac, id, xid, network, &in, &out, values);
}

unsigned compared_ip_frame(void *mac, void *id, void *xid, void *network, const void *dst_mac, const void *src_ip, const void *dst_ip, unsigned char proto,
                           const void *payload, unsigned long len, void *reply, unsigned long room, void *values) {
    Slice in = {payload, len}, out = {reply, room};
    return ip_frame_within(mac, id, xid, network, dst_mac, src_ip, dst_ip, proto, &in, &out, values);
}

unsigned compared_udp_payload(const void *src_ip, unsigned short src_port, const void *dst_ip, unsigned short dst_port, const void *data,
                              unsigned long len, void *reply, unsigned long room, void *values) {
    Slice in = {data, len}, out = {reply, room};
    return udp_payload_within(src_ip, src_port, dst_ip, dst_port, &in, &out, values);
}

unsigned compared_tcp_frame(void *mac, void *id, void *xid, void *network, const void *dst_mac, const void *src_ip, unsigned short src_port, const void *dst_ip,
                            unsigned short dst_port, unsigned seq, unsigned ack, unsigned char flags, const void *data, unsigned long len,
                            void *reply, unsigned long room, void *values) {
    Slice in = {data, len}, out = {reply, room};
    return tcp_frame_within(mac, id, xid, network, dst_mac, src_ip, src_port, dst_ip, dst_port, seq, ack, flags, &in, &out, values);
}

unsigned compared_dhcp_reply(const void *mac, unsigned xid, const void *network, unsigned char kind, void *reply, unsigned long room, void *values) {
    Slice out = {reply, room};
    return dhcp_reply_within(mac, xid, network, kind, &out, values);
}

unsigned compared_message_type(const void *data, unsigned long len, void *values) {
    Slice in = {data, len};
    return message_type_within(&in, values);
}

unsigned short compared_checksum(const void *input, unsigned long len) {
    Slice in = {input, len};
    return checksum_within(&in);
}

unsigned short compared_sum(unsigned short start, const void *input, unsigned long len) {
    Slice in = {input, len};
    return sum_within(start, &in);
}

unsigned short compared_plain(unsigned short start, const void *input, unsigned long len) {
    Slice in = {input, len};
    return plain_within(start, &in);
}

unsigned compared_make(void *mac, void *id, void *xid, void *network, unsigned lease_named) {
    return make_within(mac, id, xid, network, lease_named);
}

unsigned compared_make_over(void *mac, void *id, void *xid, void *network, const void *new_mac, const void *asked, unsigned lease_named) {
    return make_over_within(mac, id, xid, network, new_mac, asked, lease_named);
}
