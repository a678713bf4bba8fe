#!/bin/sh
# Runs the built program as a process, and holds its exit code and all that it writes against what
# is wanted: on the worked inputs, where standard input or output is closed, full or without an end,
# and with arguments, none of which a test of `run` can have.
#
#     ./process.sh            both builds that `rt ci` leaves in out/: iphead, and iphead.by-rattle,
#                             which Rattle's own compiler makes after it; it fails where one of them
#                             is missing, or the second older than the first
#     ./process.sh iphead     the build of this name alone, as after `rt run`, which makes no other
#
# It prints a line for each case, and at last 'N passed, M failed'. The exit code is 1 where one
# failed.
set -u
unset CDPATH
cd "$(dirname "$0")" || exit 1

[ -c /dev/full ] || { echo 'there is no /dev/full' && exit 1; }
room=$(mktemp -d) || exit 1
trap 'rm -rf "$room"' EXIT
passed=0
failed=0

pass() {
    passed=$((passed + 1))
    echo "ok: $build: $1"
}

fail() {
    failed=$((failed + 1))
    echo "FAILED: $build: $1: $2"
}

# judge NAME CODE WANTED: the run before it ended with the code that is wanted, wrote the file
# `wanted`, and told no error.
judge() {
    if [ "$2" -ne "$3" ]; then
        fail "$1" "it ended with $2, and not with $3"
    elif ! cmp -s "$room/output" "$room/wanted"; then
        fail "$1" 'it did not write what is wanted'
    elif [ -s "$room/errors" ]; then
        fail "$1" 'it wrote to standard error'
    else
        pass "$1"
    fi
}

# gives NAME CODE INPUT: what stands on standard input here is written for the input.
gives() {
    cat >"$room/wanted"
    printf '%s' "$3" >"$room/input"
    "$program" <"$room/input" >"$room/output" 2>"$room/errors"
    judge "$1" $? "$2"
}

# megabyte CHARACTER: a megabyte of it is what comes by descriptor 3.
megabyte() {
    dd if=/dev/zero bs=1024 count=1024 2>/dev/null | tr '\0' "$1" >"$room/input"
    exec 3<"$room/input"
}

# has_read NAME BYTES: of that megabyte so many bytes are read, and the others are not.
has_read() {
    left=$(cat <&3 | wc -c)
    exec 3<&-
    if [ "$((1048576 - left))" -eq "$2" ]; then
        pass "$1, after $2 bytes"
    else
        fail "$1, after $2 bytes" "it read $((1048576 - left))"
    fi
}

# stops NAME CHARACTER BYTES: a megabyte of the character is refused once so many bytes are read.
stops() {
    echo 'error: input is too long' >"$room/wanted"
    megabyte "$2"
    "$program" <&3 >"$room/output" 2>"$room/errors"
    judge "$1" $? 2
    has_read "$1" "$3"
}

ipv6='60000000 00003b40 00000000 00000000 00000000 00000001 00000000 00000000 00000000 00000002'
addresses=${ipv6#60000000 00003b40}
digits='6000000000003b400000000000000000000000000000000100000000000000000000000000000002'
ipv4='45000073 00004000 4011b861 c0a80001 c0a800c7'
cat >"$room/lines" <<'END'
version 6
traffic_class 0
flow_label 0
payload_length 0
next_header 59
hop_limit 64
source 00000000000000000000000000000001
destination 00000000000000000000000000000002
upper 59
place 40
rest 0
END

# One byte many times.
repeated() {
    dd if=/dev/zero bs="$2" count=1 2>/dev/null | tr '\0' "$1"
}

printed_headers() {
    gives 'an IPv6 header' 0 "$ipv6" <"$room/lines"
    many=
    for _ in 1 2 3 4 5 6 7 8 9 10 11 12 13 14 15 16 17; do
        many=$many$digits$digits$digits
    done
    gives '4096 digits' 0 "${many}6000000000003b40" <<'END'
version 6
traffic_class 0
flow_label 0
payload_length 0
next_header 59
hop_limit 64
source 00000000000000000000000000000001
destination 00000000000000000000000000000002
upper 59
place 40
rest 2008
END
    gives '32 extension headers' 0 \
        "60000000 01000040$addresses $(repeated 0 496)3b00000000000000" <<'END'
version 6
traffic_class 0
flow_label 0
payload_length 256
next_header 0
hop_limit 64
source 00000000000000000000000000000001
destination 00000000000000000000000000000002
upper 59
place 296
rest 0
END
    gives 'an IPv4 header' 0 "$ipv4" <<'END'
version 4
ihl 5
dscp 0
ecn 0
total_len 115
identification 0
dont_fragment true
more_fragments false
fragment_offset 0
time_to_live 64
protocol 17
header_checksum b861
source 192.168.0.1
destination 192.168.0.199
options -
computed b861
sum good
rest 0
END
    gives 'an IPv4 header with options' 0 \
        '46c00018 0001a000 40060000 0a000001 0a000002 01020304 ff' <<'END'
version 4
ihl 6
dscp 48
ecn 0
total_len 24
identification 1
dont_fragment false
more_fragments true
fragment_offset 0
time_to_live 64
protocol 6
header_checksum 0000
source 10.0.0.1
destination 10.0.0.2
options 01020304
computed 4117
sum bad
rest 1
END
    gives 'the largest IPv4 header' 0 "4fffffffffff7f$(repeated f 106)" <<'END'
version 4
ihl 15
dscp 63
ecn 3
total_len 65535
identification 65535
dont_fragment true
more_fragments true
fragment_offset 8191
time_to_live 255
protocol 255
header_checksum ffff
source 255.255.255.255
destination 255.255.255.255
options ffffffffffffffffffffffffffffffffffffffffffffffffffffffffffffffffffffffffffffffff
computed 3001
sum bad
rest 0
END
}

refused_headers() {
    gives 'an incomplete extension header' 1 \
        "60000000 000b0040$addresses 2b000000 00000000 060100" <<'END'
version 6
traffic_class 0
flow_label 0
payload_length 11
next_header 0
hop_limit 64
source 00000000000000000000000000000001
destination 00000000000000000000000000000002
error: IPv6 Extension Header Error: Not enough data to decode 'IPv6 extension header'. 16 byte(s) would be required, but only 3 byte(s) are available based on the slice length ('IPv6 extension header' starts at overall parsed byte 48).
END
    gives '33 extension headers' 1 "60000000 01080040$addresses $(repeated 0 528)" <<'END'
version 6
traffic_class 0
flow_label 0
payload_length 264
next_header 0
hop_limit 64
source 00000000000000000000000000000001
destination 00000000000000000000000000000002
error: IPv6 Extension Header Error: More than 32 extension header(s) ('0' starts at overall parsed byte 296).
END
    gives 'an IHL below 5' 1 "4${ipv6#6}" <<'END'
error: IPv4 Header Error: The 'internet header length' value '0' present in the IPv4 header is smaller than the minimum size of an IPv4 header. The minimum allowed value is '5'.
END
    for blanks in '' ' ' "$(printf ' \t\r\n\t ')"; do
        gives "no digit among ${#blanks} blanks" 1 "$blanks" <<'END'
error: IPv4 Header Error: Not enough data to decode 'IPv4 header'. 20 byte(s) would be required, but only 0 byte(s) are available based on the slice length.
END
    done
    "$program" </dev/null >"$room/output" 2>"$room/errors"
    judge 'no input' $? 1
}

bad_input() {
    for bad in 6 6g "$(repeated g 4096)"; do
        gives "${#bad} characters that are not hex" 2 "$bad" <<'END'
error: input is not hex
END
    done
    gives '4097 characters' 2 "$(repeated g 4097)" <<'END'
error: input is too long
END
    stops 'a megabyte of digits' 0 4608
    stops 'a megabyte of blanks' ' ' 66048
    "$program" </dev/zero >"$room/output" 2>"$room/errors"
    judge 'a device without an end' $? 2
    while echo 00000000; do :; done 2>/dev/null | "$program" >"$room/output" 2>"$room/errors"
    judge 'a pipe without an end' $? 2
}

# What changes nothing: an argument of any kind, and what standard input and error are.
other_ways_to_run() {
    printf '%s' "$ipv6" >"$room/input"
    printf '%s' "$ipv4" >"$room/other"
    cp "$room/lines" "$room/wanted"
    for argument in --version -V -v --help -h -- - '' 45 "$ipv4" no/such/file .; do
        "$program" "$argument" <"$room/input" >"$room/output" 2>"$room/errors"
        judge "the argument '$argument'" $? 0
    done
    "$program" "$room/other" <"$room/input" >"$room/output" 2>"$room/errors"
    judge 'a file of another header as argument' $? 0
    "$program" --version "$room/other" "$room/other" <"$room/input" >"$room/output" 2>"$room/errors"
    judge 'three arguments' $? 0
    printf '%s' "$ipv6" | "$program" >"$room/output" 2>"$room/errors"
    judge 'a pipe' $? 0
    "$program" <"$room/input" >"$room/output" 2>&-
    judge 'standard error closed' $? 0
}

# Nothing is written.
unreadable_input() {
    : >"$room/wanted"
    "$program" <&- >"$room/output" 2>"$room/errors"
    judge 'standard input closed' $? 3
    "$program" <. >"$room/output" 2>"$room/errors"
    judge 'a folder as standard input' $? 3
}

# What is written before the output is full stays, and nothing comes after it, nor is anything read.
unwritable_output() {
    : >"$room/wanted"
    : >"$room/output"
    for input in "$ipv6" '' 6g; do
        printf '%s' "$input" >"$room/input"
        "$program" <"$room/input" >&- 2>"$room/errors"
        judge "standard output closed, on '${input%% *}'" $? 3
        "$program" <"$room/input" >/dev/full 2>"$room/errors"
        judge "standard output full, on '${input%% *}'" $? 3
    done
    printf '%s' "$ipv6" >"$room/input"
    "$program" <&- >&- 2>"$room/errors"
    judge 'standard input and output closed' $? 3
    mkfifo "$room/pipe"
    exec 3<>"$room/pipe" 4>"$room/pipe" 3<&-
    "$program" <"$room/input" >&4 2>"$room/errors"
    judge 'a pipe that nobody reads' $? 3
    exec 4>&-
    rm "$room/pipe"
    megabyte 0
    "$program" <&3 >/dev/full 2>"$room/errors"
    judge 'standard output full, on a megabyte of digits' $? 3
    has_read 'standard output full, on a megabyte of digits' 4608
    printf '%s' "$ipv6" >"$room/input"
    printf '%412s' '' >"$room/output"
    { printf '%412s' '' && dd if="$room/lines" bs=1 count=100 2>/dev/null; } >"$room/wanted"
    sh -c "trap '' XFSZ && ulimit -f 1 && exec $program" \
        <"$room/input" >>"$room/output" 2>"$room/errors"
    judge 'a file that is full after 100 bytes' $? 3
}

[ $# -gt 0 ] || set -- iphead iphead.by-rattle
for build; do
    program=out/$build
    if ! [ -x "$program" ]; then
        fail 'the build' 'it is missing: rt ci makes both, and rt run makes iphead alone'
        continue
    fi
    if [ "$build" = iphead.by-rattle ] && [ -n "$(find out/iphead -newer "$program")" ]; then
        fail 'the build' 'it is older than iphead: rt ci makes both anew'
        continue
    fi
    printed_headers
    refused_headers
    bad_input
    other_ways_to_run
    unreadable_input
    unwritable_output
done
echo "$passed passed, $failed failed"
[ "$failed" -eq 0 ]
