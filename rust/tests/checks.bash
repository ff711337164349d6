# What rust/tap-namespace and rust/real-guest share, and each reads: checks and their count, waiting, and what
# is read out of a capture. The script says where the capture is (`captured FILTER WORDS...`), and in $script
# its own path.

passed=0
failed=0
about='' # who a check is about, with ': ' behind it

on_one_line() {
    tr '\n' '|' | sed 's/|$//; s/|/ | /g' | cut -c 1-400
}

same() { # WHAT GOT EXPECTED
    if [ "$2" = "$3" ]; then
        passed=$((passed + 1))
        echo "ok    $about$1"
    else
        failed=$((failed + 1))
        echo "FAIL  $about$1: it is '$(on_one_line <<<"$2")', and has to be '$(on_one_line <<<"$3")'"
    fi
}

usage() {
    sed -n '/^# Usage/,/^# It/s/^# //p' "$script" | sed '$d'
}

not_run() {
    echo "rust/$(basename "$script"): $1" >&2
    exit 2
}

build_example() { # NAME: its path is printed
    local rust
    rust=$(dirname "$script")
    command -v cargo >/dev/null || not_run "cargo is missing: Debian's package cargo, of Debian 13 or later, has it"
    echo "rust/$(basename "$script"): building the example; to prove the library first takes some minutes" >&2
    cargo build --release --example "$1" --offline --manifest-path "$rust/Cargo.toml" \
        --target-dir "$rust/target" >&2 || not_run "the example can't be built"
    echo "$rust/target/release/examples/$1"
}

within() { # SECONDS COMMAND...: whether it succeeds, tried for this time or, where a try takes long, longer
    local tries
    for ((tries = 0; tries < 10 * $1; tries++)); do
        if "${@:2}"; then return 0; fi
        sleep 0.1
    done
    return 1
}

# A number that Linux counts of UDP, out of /proc/net/snmp.
udp_counter() { # NAME
    awk -v name="$1" '/^Udp:/ && !at { for (at = NF; $at != name; at--); next } /^Udp:/ { print $at }'
}

# --- out of a capture

count() { # FILTER
    captured "$1" | wc -l
}

# Of each DHCP message its ends, its xid and its type.
dhcp_messages() {
    captured 'udp port 67 or udp port 68' -vv | sed -nE '
        /BOOTP/ { s/^ *([0-9.]+ > [0-9.]+): .* xid (0x[0-9a-f]+).*/\1 \2/; h; }
        /DHCP-Message/ { s/.*: //; H; x; s/\n/ /; p; }'
}

# Of each frame its length, the guest's MAC, and the addresses and ports.
ends() { # FILTER
    local end='([0-9.]+)\.([0-9]+)'
    captured "$1" -e |
        sed -nE "s/^[^ ]+ ([0-9a-f:]+) > .*, length ([0-9]+): $end > $end: .*/\2 \1 \3:\4 to \5:\6/p"
}

# What the gateway has to hand on, in the examples' words.
handoffs_in_capture() {
    local to_dns="(dst host $gateway and udp dst port 53)" length between
    ends "$to_dns" |
        while read -r length between; do echo "dns $between, start 42, length $((length - 42))"; done
    ends "udp and not (port 67 or port 7) and not $to_dns" |
        while read -r length between; do echo "relay $between, start 42, length $((length - 42))"; done
    ends tcp |
        while read -r length between; do echo "tcp $between, length $length"; done
}

# What the gateway's host has to echo, in the examples' words.
echoes_in_capture() {
    local length between
    ends 'udp dst port 7' |
        while read -r length between; do echo "echo $between, start 42, length $((length - 42))"; done
}

# The payloads of IPv4 packets behind their first four bytes, a line each: ICMP messages behind type, code and
# checksum, UDP datagrams behind their ports.
behind_four_bytes() { # FILTER
    captured "$1" -x | sed -E 's/^\t0x[0-9a-f]+: *//; t; s/.*/=/' | tr -d ' \n' | tr '=' '\n' |
        cut -c $((2 * (20 + 4) + 1))-
}
