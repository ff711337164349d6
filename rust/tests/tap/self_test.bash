# The self-test of rust/tap-namespace, which reads this file: faults are put around the gateway
# (wrong_tap.rs), one at a time, and the checks of the DHCP clients and the sockets have to fail under them.

at_once=3 # faults

# A fault, and the checks that have to fail under it for every client, and for the sockets, where they make
# them: how their names begin, or with a $ the whole name.
faults() {
    cat <<'EOF'
no gateway: the gateway serves tap0
status: SIGTERM ends the gateway
tally: the gateway's tally
another link: the namespace has no link but lo and tap0
ports 68 to 67: takes the lease,; behind each of its messages
ports 67 to 67: takes the lease,; behind each of its messages
ports 68 to 68: behind each of its messages
target: behind each of its messages
header sum: tcpdump finds no wrong checksum
UDP sum: takes the lease,; datagrams of; 'zero' comes back; the kernel finds no wrong; tcpdump finds no wrong
UDP sum without the pseudo-header: takes the lease,; datagrams of; behind the ports our datagrams
UDP sum for another address: takes the lease,; datagrams of; behind the ports our datagrams
UDP sum 0: tcpdump finds a right checksum
UDP sum that comes to 0: that is ffff on the wire
no echo: N datagrams to port 7
echo's data: datagrams of; behind the ports our datagrams
echo's length: what is echoed is
echo's port: the gateway sends echoes
id: the IPv4 replies
xid: takes the lease,
client's MAC: offer and acknowledgement as tcpdump reads them
message type: asks once and is answered
no offer: asks once and is answered
no acknowledgement: N requests for ARP, ping and DHCP
address: tap0 has the address 10.0.2.15/24$; the pings come from
mask: tap0 has the address 10.0.2.15/24$
router: the default route goes to 10.0.2.2$
name server: takes the lease,
lease: takes the lease,
server: asks for its lease anew
no ARP: ping -s 56
no ping: ping -s 56
ping's source: nothing else comes from the gateway
ping's data: N replies have their pings' bytes
no acknowledgement of a renewal: takes the lease anew
a renewal's target: its socket hears no acknowledgement
a renewal's UDP sum: takes the lease anew
a renewal's lease: takes the lease anew
a renewal's address: takes the lease anew
a renewal's mask: takes the lease anew; tap0 has the address 10.0.2.15/24 still
a renewal's router: takes the lease anew; the default route goes to 10.0.2.2 still
EOF
}

# Of each check that passed (ok) or failed (FAIL) its client and its name, with an N where numbers differ.
checks() { # ok or FAIL, FOLDER
    sed -nE "/^$1 / {
        s/^[^ ]+ +//
        s/: it is '.*//
        s/: ([0-9]+|one or more) (requests|replies|datagrams)/: N \2/
        s/ to [0-9]+\$/ to N/
        p
    }" "$2"/*/checks
}

clients_with() { # CHECK; reads client and check
    grep ": $1" | sed 's/:.*//' | sort -u
}

serving='the gateway serves tap0'

check_fault() { # FAULT FOLDER CHECK...
    local check
    [ "$1" = 'no gateway' ] ||
        same "$1: the gateway serves each client all the same" \
            "$(checks ok "$2" | clients_with "$serving")" "$(clients_with "$serving" <"$work/all")"
    for check in "${@:3}"; do
        same "$1: under it fails '$check'" \
            "$(checks FAIL "$2" | clients_with "$check")" \
            "$(clients_with "$check" <"$work/all" | grep . || echo one client or more)"
        echo ": $check" >>"$work/named"
    done
}

# Whether tcpdump lost a frame is nothing that a gateway can do wrong.
checks_without_fault() {
    grep -v ': the capture lacks no frame$' "$work/all" | grep -vf "$work/named"
}

check_faults() {
    local lines first line folder checks
    readarray -t lines < <(faults)
    for ((first = 0; first < ${#lines[@]}; first += at_once)); do
        for line in "${lines[@]:first:at_once}"; do
            FAULT=${line%%:*} start_parts "$work/${line%%:*}" "$wrong_program" short_lease
        done
        for line in "${lines[@]:first:at_once}"; do
            folder="$work/${line%%:*}"
            end_parts "$folder"
            readarray -t checks < <(sed 's/^[^:]*: //; s/; /\n/g' <<<"$line")
            check_fault "${line%%:*}" "$folder" "${checks[@]}"
            rm -r "$folder"
        done
    done
}

run_self_test() { # PROGRAM
    short_lease
    start_parts "$work/right" "$1" short_lease
    end_parts "$work/right"
    same "no fault: all checks pass" "$(checks FAIL "$work/right")" ""
    checks ok "$work/right" >"$work/all"
    check_faults
    same "each check of a client or the sockets has a fault under which it fails, but for the capture's own" \
        "$(checks_without_fault)" ""
}
