# The DHCP clients of rust/tap-namespace, which reads this file. Each runs in namespaces of its own, with a
# TAP device, a capture and a gateway for it alone.

networkd=/usr/lib/systemd/systemd-networkd

# Into $clients those that are here, by name, and into $programs what they are. dhcpcd is there twice, since
# it listens elsewhere when it is started for one link alone.
find_clients() {
    clients=() programs=()
    find_client dhclient isc-dhcp-client dhclient
    find_client busybox busybox udhcpc
    find_client dhcpcd dhcpcd-base dhcpcd dhcpcd_of_one
    find_client "$networkd" systemd networkd
}

find_client() { # PROGRAM PACKAGE NAME...
    if is_installed "$1"; then
        programs+=("$1")
        clients+=("${@:3}")
        note "$3: $(version_of "$1")"
    else
        note "$3 is left out, since $1 is missing: Debian's package $2 has it"
    fi
}

version_of() { # PROGRAM
    local words=(--version)
    [ "$1" != busybox ] || words=()
    "$1" "${words[@]}" 2>&1 | head -n 1
}

# --- a client, and what it says

# A host without settings, leases and names of the machine's; what a client writes is gone when it ends.
make_up_a_host() {
    mount -t tmpfs tap-namespace /run
    mount -t sysfs -o ro tap-namespace /sys # networkd waits for udev where it can be written
    [ ! -d /var/lib/dhcpcd ] || mount -t tmpfs tap-namespace /var/lib/dhcpcd
    mkdir /run/dhcpcd
    echo guest >/proc/sys/kernel/hostname
    echo 00112233445566778899aabbccddeeff >/run/machine-id
    [ ! -f /etc/machine-id ] || mount --bind /run/machine-id /etc/machine-id
}

# What a client starts when it has a lease. `tell` writes down what the client was told; `set`, for those
# that leave this to their script, also sets address and route. dhclient and dhcpcd name things in one way,
# udhcpc in another. Neither touches /etc/resolv.conf.
write_hooks() {
    cat >"$work/tell" <<'EOF'
#!/bin/sh
case ${reason:-$1} in
    BOUND | bound) what=taken ;;
    RENEW | REBIND | renew) what=renewed ;;
    *) exit 0 ;;
esac
echo "$what ${new_ip_address:-$ip} ${new_subnet_mask:-$subnet} ${new_routers:-$router}" \
    "${new_domain_name_servers:-$dns} ${new_dhcp_lease_time:-$lease}" >>"$(dirname "$0")/told"
EOF
    cat >"$work/set" <<'EOF'
#!/bin/sh
address=${new_ip_address:-$ip} mask=${new_subnet_mask:-$subnet} router=${new_routers:-$router}
if [ -n "$address" ]; then
    ip address replace "$address/$mask" dev "$interface"
    ip route replace default via "$router" dev "$interface"
fi
. "$(dirname "$0")/tell"
EOF
    chmod +x "$work/tell" "$work/set"
}

# dhclient: the gateway tells no time of renewal, so that it is half the lease; this client can be given
# another. dhcpcd: a TAP device that its settings don't name it would leave alone.
settings() { # NAME
    case $1,$renewal in
        dhclient,told) echo 'supersede dhcp-renewal-time 4;' ;;
        dhcpcd*) echo "interface $tap" ;;
        networkd,*)
            printf '%s\n' '[Match]' "Name=$tap"
            printf '%s\n' '[Network]' DHCP=ipv4 LinkLocalAddressing=no IPv6AcceptRA=no LLDP=no
            ;;
    esac
}

make_folders_of_networkd() {
    local folder
    for folder in netif netif/links netif/leases netif/lldp; do
        mkdir -p "/run/systemd/$folder"
        chown systemd-network: "/run/systemd/$folder"
    done
    mkdir /run/systemd/network
    cp "$work/settings" "/run/systemd/network/$tap.network"
}

run_client() { # NAME
    local dhclient=(dhclient -d -v -sf "$work/set" -cf "$work/settings" -lf "$work/leases" -pf "$work/pid")
    # dhcpcd's own vendor class would name the machine's kernel.
    local dhcpcd=(dhcpcd -4 -B -d --nodev -f "$work/settings" -c "$work/tell" -i 'a vendor class')
    case $1 in
        dhclient) exec "${dhclient[@]}" "$tap" ;;
        udhcpc) exec busybox udhcpc -f -i "$tap" -s "$work/set" ;;
        dhcpcd) exec "${dhcpcd[@]}" ;;
        dhcpcd_of_one) exec "${dhcpcd[@]}" "$tap" ;;
        networkd) SYSTEMD_LOG_LEVEL=debug exec "$networkd" ;;
    esac
}

start_client() { # NAME
    settings "$1" >"$work/settings"
    write_hooks
    [ "$1" != networkd ] || make_folders_of_networkd
    run_client "$1" >"$work/said" 2>&1 &
    client=$!
}

end_client() { # at once: networkd would give its lease back
    kill -KILL "$client" 2>/dev/null || true
    wait "$client" 2>/dev/null || true
}

# What the client says it was told, a line for each lease: taken or renewed, address, mask, router, name
# server and seconds.
told() { # NAME
    if [ "$1" = networkd ]; then told_networkd; else cat "$work/told" 2>/dev/null || true; fi
}

# It starts no script: it writes the lease into a file, and its steps into a log.
told_networkd() {
    local what=taken line
    while read -r line; do
        case $line in
            *'DHCPv4 client: DISCOVER') what=taken ;;
            *'DHCPv4 address and routes set.')
                echo "$what $(lease_of_networkd)"
                what=renewed
                ;;
        esac
    done <"$work/said"
}

lease_of_networkd() {
    local key values=()
    for key in ADDRESS NETMASK ROUTER DNS LIFETIME; do
        values+=("$(sed -n "s/^$key=//p" /run/systemd/netif/leases/*)")
    done
    echo "${values[*]}"
}

has_told() { # NAME WHAT
    [[ $'\n'$(told "$1") == *$'\n'"$2 "* ]]
}

# --- the messages

messages_of_renewal() {
    dhcp_messages | tail -n +5
}

with_answers() { # MESSAGES: the client's among them, behind each the answer that it has to have
    local from to xid type answer
    grep -E ' (Discover|Request)$' <<<"$1" | while read -r from _ to xid type; do
        answer=ACK
        [ "$type" = Request ] || answer=Offer
        printf '%s\n' "$from > $to $xid $type" "$gateway.67 > $broadcast.68 $xid $answer"
    done
}

check_messages() {
    local messages expected
    messages=$(dhcp_messages)
    expected=$(with_answers "$messages")
    same "behind each of its messages the answer, from port 67 to port 68 of $broadcast" \
        "$messages" "${expected:-a message and an answer}"
}

reply_as_read() { # TYPE: what tcpdump has to say of a reply
    echo "Your-IP $guest
Server-IP $gateway
Client-Ethernet-Address $guest_mac
DHCP-Message (53), length 1: $1
Server-ID (54), length 4: $gateway
Lease-Time (51), length 4: $lease
Subnet-Mask (1), length 4: $mask
Default-Gateway (3), length 4: $gateway
Domain-Name-Server (6), length 4: $gateway"
}

check_replies_as_read() {
    same "offer and acknowledgement as tcpdump reads them" "$(captured "$dhcp_reply" -vv -c 2 |
        grep -oE '(Your|Server)-IP.*|Client-Ethernet.*|[^ ]+ \([0-9]+\), length [14]: .*')" \
        "$(reply_as_read Offer && reply_as_read ACK)"
}

# --- the lease

check_taken() { # NAME
    within 20 has_told "$1" taken || true
    same "asks once and is answered" "$(dhcp_messages | head -n 4 | sed 's/.* //')" \
        "$(printf '%s\n' Discover Offer Request ACK)"
    same "takes the lease, for $lease seconds, with the name server $gateway" "$(told "$1" | head -n 1)" \
        "taken $guest $mask $gateway $gateway $lease"
    check_address
}

check_address() { # WHEN
    local address="$guest/${subnet#*/}"
    same "$tap has the address $address${1-}" \
        "$(ip -4 -oneline address show dev "$tap" | sed -E 's/.* inet ([^ ]+) .*/\1/')" "$address"
    same "the default route goes to $gateway${1-}" "$(ip route show default | grep -oE 'via .* dev [^ ]+')" \
        "via $gateway dev $tap"
}

check_ping_of_client() {
    check_ping 56
    same "the pings come from $guest" \
        "$(captured "$ping_request" | sed -E 's/.* IP ([0-9.]+) > .*/\1/' | uniq)" "$guest"
}

# --- its renewal

# A client with a lease has a UDP socket at port 68, of any address or of the leased one alone. Linux hands
# the latter no datagram for the network's broadcast address, where the gateway sends all its replies, and
# counts it as unheard (IgnoredMulti). Such a client takes no acknowledgement of a renewal and asks again.
# When 7/8 of the lease are over, it asks all servers ("rebinding") and reads the answer from a packet
# socket, as it read the first one: so it keeps the lease.
hears_no_broadcast() { # NAME
    [ "$1" = dhcpcd_of_one ] || [ "$1" = networkd ]
}

unheard_broadcasts() {
    udp_counter IgnoredMulti </proc/net/snmp
}

ends_of_renewal() { # NAME: where its requests have to come from and go to
    echo "$guest.68 > $gateway.67"
    case $1,$renewal in
        dhcpcd_of_one,awaited) echo "$guest.68 > 255.255.255.255.67" ;;
        networkd,awaited) echo "0.0.0.0.68 > 255.255.255.255.67" ;;
    esac
}

is_renewal_acknowledged() {
    messages_of_renewal | grep -q ' ACK$'
}

await_renewal() { # NAME
    has_told "$1" taken || return 0
    case $1,$renewal in
        dhclient,told | *,awaited) ;;
        *,told) kill -USR1 "$client" || true ;;
    esac
    if [ "$renewal" = told ] && hears_no_broadcast "$1"; then
        in_time is_renewal_acknowledged || true
    else
        within 25 has_told "$1" renewed || true
    fi
}

check_renewal() { # NAME
    local unheard ends expected="renewed $guest $mask $gateway $gateway $lease"
    if [ "$1,$renewal" = networkd,told ]; then
        note "is told to renew over D-Bus alone, which isn't here: it does so where the lease is short"
        return
    fi
    ends=$(ends_of_renewal "$1")
    unheard=$(unheard_broadcasts)
    await_renewal "$1"
    same "asks for its lease anew, $(on_one_line <<<"$ends")" \
        "$(messages_of_renewal | sed -n 's/ 0x.* Request$//p' | uniq)" "$ends"
    if hears_no_broadcast "$1"; then
        same "its socket hears no acknowledgement" "$(($(unheard_broadcasts) - unheard)) unheard" \
            "$(messages_of_renewal | grep ' ACK$' | wc -l | sed 's/^0$/1 or more/') unheard"
        [ "$renewal" = awaited ] || expected=''
    fi
    if [ -n "$expected" ]; then
        same "takes the lease anew" "$(told "$1" | sed -n 2p)" "$expected"
    fi
    check_address " still"
}

# --- all checks of a client

check_client() { # PROGRAM NETWORK NAME
    "$2"
    about="$3: "
    make_filters
    make_up_a_host
    make_network "$ethernet_mtu"
    start_capture
    start_gateway "$1"
    start_client "$3"
    check_taken "$3"
    check_links
    check_ping_of_client
    check_renewal "$3"
    end_client
    check_end 0 'dns 0, relay 0, tcp 0' 1
    check_messages
    check_replies_as_read
    check_ids "$guest_mac"
    check_replies
    check_udp_sums
}

# The clients and the sockets ($parts), all at once. What each leaves and prints is in a folder of its name.
start_parts() { # FOLDER PROGRAM NETWORK
    local name
    for name in "${parts[@]}"; do
        mkdir -p "$1/$name"
        "${new_namespaces[@]}" bash "$script" --part "$1/$name" "$2" "$3" "$name" \
            >"$1/$name/checks" 2>&1 </dev/null &
        running[$1/$name]=$!
    done
}

end_parts() { # FOLDER
    local name
    for name in "${parts[@]}"; do
        status=0
        wait "${running[$1/$name]}" || status=$?
        [ "$status" = 0 ] || not_run "the checks of $name have broken off: $(tail -n 3 "$1/$name/checks" | on_one_line)"
    done
}

tell_checks() { # FOLDER: what they have printed, in turn
    local name
    for name in "${parts[@]}"; do
        cat "$1/$name/checks"
        passed=$((passed + $(sed -n '/^ok /p' "$1/$name/checks" | wc -l)))
        failed=$((failed + $(sed -n '/^FAIL /p' "$1/$name/checks" | wc -l)))
    done
}

keep_captures() { # FOLDER NETWORK
    local name
    [ -n "$captures" ] || return 0
    for name in "${clients[@]}"; do cp "$1/$name/frames.pcap" "$captures/tap-$name-$2.pcap"; done
}
