# Traces and inputs of trace-list, in hexadecimal: sourced by samples/make, samples/premises and tests/trace-list.

# a number in so many bytes, low byte first
low_first() { # BYTES NUMBER
    local n=$2 i
    for ((i = 0; i < $1; i++)); do
        printf '%02X' $((n & 255))
        n=$((n >> 8))
    done
}

# a byte so many times
times() { # COUNT BYTE
    local s
    printf -v s '%*s' "$1" ''
    printf '%s' "${s// /$2}"
}

# a kind table: all 0 but the entries given
kinds() { # END=KIND...
    local table end
    table=$(times 256 00)
    for end in "$@"; do
        table=${table:0:$((16#${end%=*} * 2))}0${end#*=}${table:$((16#${end%=*} * 2 + 2))}
    done
    printf '%s' "$table"
}

# a trace's header: the version, then zeros
header() { # VERSION
    low_first 4 "$1"
    times 2044 00
}

# 2024-05-01 08:30 in UTC, as .NET stores it, and so many milliseconds more
stored() { echo $(((1 << 62) + 638501490000000000 + $1 * 10000)); }

# ticks, properties, length, payload, end byte
record() { # TICKS PROPERTIES END PAYLOAD
    low_first 8 "$1"
    printf '%s' "$2"
    low_first 4 $((${#4} / 2))
    printf '%s%s' "$4" "$3"
}

# a bracket record around a PTI body
bracket() { # BODY
    printf '5B'
    low_first 1 $((${#1} / 2 + 2))
    printf '00%s5D' "$1"
}

# a PTI body of version 2: ten zeros, then the start tag; the radio part; the end tag, RSSI, region, channel, protocol 6 and one more
received() { # RSSI REGION CHANNEL RADIO
    bracket "02$(times 10 00)F8$4F9$1$2$30600"
}

# the same without RSSI
sent() { # REGION CHANNEL RADIO
    bracket "02$(times 10 00)FC$3FD$1$20600"
}

# a Zniffer frame: timestamp 0, channel and speed, region, RSSI, data
zniffer() { # CHANNEL-AND-SPEED REGION RSSI DATA
    printf '21010000%s%s%s2103' "$1" "$2" "$3"
    low_first 1 $((${#4} / 2))
    printf '%s' "$4"
}

# hexadecimal as bytes
bytes() { # HEX
    local s=$1 at
    for ((at = 0; at < ${#s}; at += 2000)); do
        printf "$(sed 's/../\\x&/g' <<<"${s:at:2000}")"
    done
}

# 01's example: kinds all 0 but entry 1 = 1, version 7, header 07 00 00 00 then zeros, and one record
example_record() { record 630822816000010000 00 01 "$(received C4 01 01 AABB)"; }
example_head() { printf '%s' "$(kinds 01=1)$(low_first 4 7)"; }
example() { printf '%s' "$(example_head)$(header 7)$(example_record)"; }
