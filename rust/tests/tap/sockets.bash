# UDP sockets of the guest's side, for rust/tap-namespace, which reads this file. The example echoes what is
# sent to port 7 of any address, in datagrams that the library has built. The kernel verifies their checksums,
# since a TAP device without offloads leaves that to it. ask_echo is the socket.

far=192.0.2.1 # nobody's, by RFC 5737: the default route leads there
echo_sizes=(0 1 2 3 4 57 1471 1472 8999 $((largest_data - 1)) "$largest_data")

make_network_of_sockets() { # NETWORK
    "$1"
    make_filters
    make_network "$largest_mtu"
    ip address add "$guest/${subnet#*/}" dev "$tap"
    ip route add default via "$gateway" dev "$tap"
    seq 20000 | head -c "$largest_data" >"$work/data"
}

ask_sizes() { # SIZE...: a line for each
    local size
    for size in "$@"; do
        head -c "$size" "$work/data" | "$asker" "$guest:0" "$far:7"
    done
}

come_back() { # SIZE...: what has to be said
    printf '%s bytes come back\n' "$@"
}

# Of the namespace, since it was made.
wrong_sums() {
    udp_counter InCsumErrors </proc/net/snmp
}

# From this port to the gateway's port 7 the datagram 'zero' has a checksum that comes to 0: the words of both
# addresses, 17, the length twice, 7, the data and this port add up to a multiple of 65,535. On document 01's
# network it is 64233.
zero_port() {
    local bytes sum
    IFS=. read -ra bytes <<<"$guest.$gateway"
    sum=$((256 * (bytes[0] + bytes[2] + bytes[4] + bytes[6]) + bytes[1] + bytes[3] + bytes[5] + bytes[7]))
    sum=$((sum + 17 + 12 + 12 + 7 + 0x7a65 + 0x726f)) # 'ze', 'ro'
    echo $((65535 - sum % 65535))
}

check_zero() {
    local port
    port=$(zero_port)
    same "'zero' comes back from $gateway to port $port, with a checksum that comes to 0" \
        "$(echo -n zero | "$asker" "$guest:$port" "$gateway:7")" '4 bytes come back'
    same "that is ffff on the wire, from the kernel as from us" \
        "$(behind_four_bytes "udp port 7 and port $port" | grep .)" \
        "$(printf '000cffff7a65726f\n%.0s' kernel us)" # the length, the checksum, 'zero'
}

# With source and target exchanged a datagram's sum is the same: so an echo is the kernel's datagram byte for
# byte behind the ports, its checksum among them.
check_echoes_in_capture() { # HOW MANY
    same "$1 datagrams to port 7, as many echoes" \
        "$(count "$echo_request") and $(count "$echo_reply")" "$1 and $1"
    same "what is echoed is what the capture has, with MACs, ports and lengths" \
        "$(grep '^echo ' "$work/printed")" "$(echoes_in_capture)"
    same "behind the ports our datagrams are the kernel's, byte for byte, with its checksums" \
        "$(behind_four_bytes "$echo_reply" | cksum)" "$(behind_four_bytes "$echo_request" | cksum)"
    same "the gateway sends echoes and answers to ARP, and nothing else" \
        "$(captured "$from_gateway and not ($echo_reply or $arp_reply)")" ""
    check_sums
    check_udp_sums
}

check_sockets() { # PROGRAM NETWORK
    about='sockets: '
    make_network_of_sockets "$2"
    start_capture
    start_gateway "$1"
    check_links
    same "datagrams of ${echo_sizes[*]} bytes come back from $far" "$(ask_sizes "${echo_sizes[@]}")" \
        "$(come_back "${echo_sizes[@]}")"
    check_zero
    same "the kernel finds no wrong UDP checksum" "$(wrong_sums)" 0
    check_end 0 'dns 0, relay 0, tcp 0' 1
    check_ids "$guest_mac"
    check_echoes_in_capture $((${#echo_sizes[@]} + 1))
}

# --- wrong checksums, by wrong_tap.rs

wrong_sizes=(0 1 1472 "$largest_data")

check_wrong_sum() { # FAULT
    local before
    FAULT=$1 start_gateway "$wrong_program"
    before=$(wrong_sums)
    same "$1: none of ${wrong_sizes[*]} bytes comes back" "$(ask_sizes "${wrong_sizes[@]}")" \
        "$(printf 'nothing comes back\n%.0s' "${wrong_sizes[@]}")"
    same "$1: the kernel counts each as a wrong checksum" "$(($(wrong_sums) - before))" ${#wrong_sizes[@]}
    stop "$serving"
}

# 0 says that there is no checksum: the kernel takes such a datagram, and tcpdump tells it.
check_sum_of_0() {
    local before
    FAULT='UDP sum 0' start_gateway "$wrong_program"
    before=$(wrong_sums)
    same "UDP sum 0: Linux takes ${wrong_sizes[*]} bytes without a checksum" \
        "$(ask_sizes "${wrong_sizes[@]}")" "$(come_back "${wrong_sizes[@]}")"
    same "UDP sum 0: the kernel counts none" "$(($(wrong_sums) - before))" 0
    stop "$serving"
}

check_wrong_sums() { # NETWORK
    local fault
    about='wrong_sums: '
    make_network_of_sockets "$1"
    for fault in 'UDP sum' 'UDP sum without the pseudo-header' 'UDP sum for another address'; do
        check_wrong_sum "$fault"
    done
    check_sum_of_0
}
