#!/usr/bin/env bash
# Runs the built program as a process, and compares its exit code and all its output with what is
# expected: on the capture in `stdin`, on that capture cut at each of its bytes and with bytes
# changed, on its packets in each format and after the headers of each other link type, on its
# records 11000 times over, on the longest records that are read and on longer ones, on the same
# packets in pcapng, with blocks of each kind and blocks that are refused, with expressions,
# with each option, with files that are read and written, with arguments that are refused, with
# standard streams that are closed, full or read by nobody, and with reads that fail, or wait, after
# some records.
#
#     ./process.sh            both builds that `rt ci` leaves in out/: ipcap, and ipcap.by-rattle,
#                             which Rattle's own compiler makes after it
#     ./process.sh ipcap      the build with this name alone, the only one that `rt run` makes
#
# It prints a line for each case that fails, and at the end 'N passed, M failed'. The exit code is 1
# if one failed.
set -u
unset CDPATH
cd "$(dirname "$0")" || exit 1

[ -c /dev/full ] || { echo 'there is no /dev/full' && exit 1; }
room=$(mktemp -d) || exit 1
trap 'rm -rf "$room"' EXIT
passed=0
failed=0
files=${FILES:-1000}
size=$(wc -c <stdin)
# The bytes of the capture in `stdin`, each as four characters for `printf`.
capture=$(od -An -v -to1 stdin | tr -d '\n' | tr ' ' '\\')
mapfile -t lines <stdout

pass() {
    passed=$((passed + 1))
}

fail() {
    failed=$((failed + 1))
    echo "FAILED: $build: $1: $2"
}

# judge NAME CODE WANTED: the last run ended with the expected code, and wrote what is in the files
# `wanted` and `wanted.errors`.
judge() {
    if [ "$2" -ne "$3" ]; then
        fail "$1" "it ended with $2, and not with $3"
    elif ! cmp -s "$room/output" "$room/wanted"; then
        fail "$1" 'it did not write what is wanted'
    elif ! cmp -s "$room/errors" "$room/wanted.errors"; then
        fail "$1" 'it did not write the errors that are wanted'
    else
        pass
    fi
}

# bytes START COUNT: so many bytes of `stdin`, from this one on.
bytes() {
    printf "${capture:4 * $1:4 * $2}"
}

# run ARGUMENT..: the program on the file `input`.
run() {
    "$program" "$@" <"$room/input" >"$room/output" 2>"$room/errors"
}

# in_pieces LENGTH ARGUMENT..: the same, but each read gets so many bytes and no more, since `direct`
# keeps the writes to a pipe apart. Each read must have room for them: what does not fit is lost.
in_pieces() {
    dd if="$room/input" bs="$1" oflag=direct 2>/dev/null |
        "$program" "${@:2}" >"$room/output" 2>"$room/errors"
}

# closing RECORDS IPV4 IPV6 OTHER CUT WRONG: the closing line of a capture. With an expression
# RECORDS is 'N of M'.
closing() {
    echo "$1 packets: $2 IPv4, $3 IPv6, $4 other, 0 refused, 0 skipped, $5 cut," \
        "$6 with a wrong checksum"
}

# closing_of RECORDS: the closing line of the first records of the capture in `stdin`: two packets of
# IPv4, one of IPv6, one of IPv4 with a wrong checksum, ARP, and a frame cut in its link header.
closing_of() {
    closing "$1" $(($1 < 3 ? $1 : $1 > 3 ? 3 : 2)) $(($1 > 2)) $(($1 > 4 ? $1 - 4 : 0)) \
        $(($1 > 5)) $(($1 > 3))
}

whole_capture() {
    cp stdin "$room/input"
    cp stdout "$room/wanted"
    closing_of 6 >"$room/wanted.errors"
    run
    judge 'the capture' $? 0
    in_pieces 1
    judge 'the capture, a byte at a time' $? 0
    cp "$room/wanted.errors" "$room/wanted"
    : >"$room/wanted.errors"
    run --quiet
    judge 'the capture, quiet' $? 0
}

# The records of `stdin` 11000 times over, and their lines: more records than 16 bits count, and
# more lines than the program keeps before it writes them. In a subshell, since the memory of these
# long lists would make each later fork slower.
build_many() (
    {
        bytes 0 24
        printf "${capture:4 * 24}%.0s" {1..11000}
    } >"$room/many"
    printf -v six '%%d %s\n' "${lines[@]#* }"
    printf "$six" {1..66000} >"$room/many.wanted"
)

# Also in pieces so small that there are more of them than 16 bits count.
many_records() {
    cp "$room/many" "$room/input"
    cp "$room/many.wanted" "$room/wanted"
    closing 66000 33000 11000 22000 11000 11000 >"$room/wanted.errors"
    run
    judge 'many records' $? 0
    in_pieces 64
    judge 'many records, in pieces of 64 bytes' $? 0
    cp "$room/wanted.errors" "$room/wanted"
    : >"$room/wanted.errors"
    run --quiet
    judge 'many records, quiet' $? 0
}

# refused LINE ARGUMENT..: the arguments are refused, and this is the first line on standard error.
# Nothing is read or written.
refused() {
    run "${@:2}"
    code=$?
    mapfile -t said <"$room/errors"
    if [ "$code" -ne 2 ]; then
        fail "the arguments '${*:2}'" "it ended with $code, and not with 2"
    elif [ "${said[0]-}" != "$1" ]; then
        fail "the arguments '${*:2}'" "it said '${said[0]-}'"
    elif [ -s "$room/output" ]; then
        fail "the arguments '${*:2}'" 'it wrote something'
    else
        pass
    fi
}

# Options that are not known, with and without an expression; values that are missing, wrong, or given
# twice; and options that exclude each other.
arguments() {
    local word
    for len in "$size" 176 0; do
        bytes 0 "$len" >"$room/input"
        for word in --frobnicate -q -x --quite -nq; do
            option=$word
            [ "$word" = -nq ] && option=-q
            refused "error: unexpected argument '$option' found" "$word"
            refused "error: unexpected argument '$option' found" "$word" tcp
            refused "error: unexpected argument '$option' found" tcp "$word"
            refused "error: unexpected argument '$option' found" --quiet "$word"
        done
        refused "error: unexpected value 'x' for '--quiet' found; no more were expected" --quiet=x
        refused "error: a value is required for '-r <FILE>' but none was supplied" -r
        refused "error: a value is required for '-w <FILE>' but none was supplied" tcp -w
        refused "error: a value is required for '-c <N>' but none was supplied" -c
        refused "error: invalid value 'x' for '-c <N>': invalid digit found in string" -c x
        refused "error: invalid value '5x' for '-c <N>': invalid digit found in string" -c5x tcp
        refused "error: invalid value '0' for '-c <N>': 0 is not in 1..18446744073709551615" -c 0
        refused "error: the argument '-c <N>' cannot be used multiple times" -c 1 -c 2
        refused 'error: an argument is not UTF-8' $'tcp \377'
        refused 'error: an argument is not UTF-8' -r $'\377'
        refused 'error: --count cannot be used with -w' --count -w -
        refused 'error: --quiet cannot be used with --count' --quiet --count
        refused 'error: --quiet cannot be used with -w' --quiet -w -
        refused 'error: --reassemble cannot be used with -w' --reassemble -w -
        refused 'error: --count cannot be used with -w' --quiet --reassemble -w - --count
        refused 'error: --quiet cannot be used with -w' --reassemble -w - --quiet
    done
}

# What --help and --version print, also if that cannot be written.
help_and_version() {
    : >"$room/wanted.errors"
    echo 'ipcap 0.1.0' >"$room/wanted"
    run --version
    judge '--version' $? 0
    run tcp -V
    judge '-V' $? 0
    for word in -h --help; do
        run "$word" tcp
        code=$?
        for line in "Usage: $build [OPTIONS] [FILE] [EXPRESSION]..." '  -r <FILE>         Read FILE' \
            '  -w <FILE>         Write the packets to FILE' '  -c <N>            Stop once N packets' \
            '      --count       Print how many packets match' '      --quiet       Print the counts' \
            '  -n...             Changes nothing' '      --utc         Print times as dates' \
            '      --reassemble  Put fragmented packets together' '  -h, --help        Print help' \
            '  -V, --version     Print version' '  [FILE]           Read FILE' '  [EXPRESSION]...  List' \
            'Link types: ' 'A line has these words:' '  ipcap trace.pcap ' '`checksum wrong`'; do
            if ! grep -q -F -e "$line" "$room/output"; then
                fail "$word" "it does not say '$line'"
            else
                pass
            fi
        done
        if [ "$(grep -c '^Usage: ' "$room/output")" -ne 1 ]; then
            fail "$word" "it does not say 'Usage: ' once"
        else
            pass
        fi
        cp "$room/output" "$room/wanted"
        judge "$word" "$code" 0
    done
    : >"$room/output"
    : >"$room/wanted"
    echo 'error: No space left on device (os error 28)' >"$room/wanted.errors"
    for word in --help --version; do
        "$program" "$word" >/dev/full 2>"$room/errors"
        judge "standard output full, with '$word'" $? 3
    done
    : >"$room/errors"
    : >"$room/wanted.errors"
    "$program" --no-such-option >"$room/output" 2>/dev/full
    judge 'standard error full, with no such option' $? 3
}

# A file that is named, by -r or by the first word that is no option; and one that cannot be opened.
files_read() {
    : >"$room/input"
    cp stdout "$room/wanted"
    closing_of 6 >"$room/wanted.errors"
    for words in '-r stdin' '-rstdin' '-nr stdin' '-nn -r stdin' 'stdin' '-n stdin' '-- stdin' \
        './stdin' '-c 6 stdin' '-c7 stdin'; do
        run $words
        judge "the arguments '$words'" $? 0
    done
    cp stdin "$room/input"
    for words in - '-r -' '-n -' '-nnn'; do
        run $words
        judge "the arguments '$words'" $? 0
    done
    : >"$room/input"
    numbered 1 4 >"$room/wanted"
    closing '2 of 6' 2 0 0 0 1 >"$room/wanted.errors"
    for words in '-r stdin udp or icmp' 'stdin udp or icmp' 'udp -r stdin or icmp' \
        'stdin udp -n or icmp' '-nr stdin -- udp or icmp'; do
        run $words
        judge "the arguments '$words'" $? 0
    done
    : >"$room/wanted"
    for name in no/such/file 'no such file' -no-file; do
        echo "error: $name: No such file or directory (os error 2)" >"$room/wanted.errors"
        run -r"$name"
        judge "the file '$name'" $? 2
        run -- "$name" tcp
        judge "the first word '$name'" $? 2
    done
    echo 'error: a read failed: Is a directory (os error 21)' >"$room/wanted.errors"
    run -r .
    judge 'a folder' $? 3
}

# kept NUMBERS: what is written with -w of the records of `stdin` with these numbers.
kept() {
    local number place=(24 100 176 266 342 418 447)
    bytes 0 24
    for number in $1; do
        bytes "${place[number - 1]}" $((place[number] - place[number - 1]))
    done
}

# writes NUMBERS CLOSING ARGUMENT..: the records of `stdin` with these numbers are written, to a file
# and to standard output.
writes() {
    kept "$1" >"$room/wanted"
    echo "$2" >"$room/wanted.errors"
    run -w - "${@:3}"
    judge "the arguments '-w - ${*:3}'" $? 0
    cp "$room/wanted" "$room/wanted.file"
    : >"$room/wanted"
    run -w "$room/file" "${@:3}"
    code=$?
    if ! cmp -s "$room/file" "$room/wanted.file"; then
        fail "the arguments '-w FILE ${*:3}'" 'the file does not have what is wanted'
    fi
    judge "the arguments '-w FILE ${*:3}'" "$code" 0
}

files_written() {
    cp stdin "$room/input"
    writes '1 2 3 4 5 6' "$(closing_of 6)"
    writes '1 4' "$(closing '2 of 6' 2 0 0 0 1)" udp or icmp
    writes '6' "$(closing '1 of 6' 0 0 1 1 0)" not '(ip or ip6 or arp)'
    writes '' "$(closing '0 of 6' 0 0 0 0 0)" port 9
    writes '1 2' "$(closing 2 2 0 0 0 0)" -c 2
    writes '1' "$(closing '1 of 1' 1 0 0 0 0)" -c 1 udp or icmp
    bytes 0 430 >"$room/input"
    kept '1 2 3 4 5' >"$room/wanted"
    {
        echo 'error: the last record is cut off: it needs 16 bytes, and there are 12'
        closing_of 5
    } >"$room/wanted.errors"
    run -w -
    judge 'packets of a capture that is cut off' $? 1
    : >"$room/wanted"
    echo 'error: no capture: 20 bytes are no file header' >"$room/wanted.errors"
    bytes 0 20 >"$room/input"
    run -w -
    judge 'packets of what is no capture' $? 2
    cp "$room/many" "$room/input"
    cp "$room/many" "$room/wanted"
    closing 66000 33000 11000 22000 11000 11000 >"$room/wanted.errors"
    run -w -
    judge 'the packets of many records' $? 0
    in_pieces 64 -w -
    judge 'the packets of many records, in pieces of 64 bytes' $? 0
    cp stdin "$room/input"
    : >"$room/wanted"
    echo "error: $room: Is a directory (os error 21)" >"$room/wanted.errors"
    run -w "$room"
    judge 'a folder that is written' $? 2
    echo 'error: a write failed: No space left on device (os error 28)' >"$room/wanted.errors"
    run -w /dev/full
    judge 'packets to a full device' $? 3
}

# How many are listed, and no more than so many.
counts() {
    cp stdin "$room/input"
    : >"$room/wanted.errors"
    echo '6 packets' >"$room/wanted"
    run --count
    judge '--count' $? 0
    echo '1 packet' >"$room/wanted"
    run --count tcp
    judge '--count tcp' $? 0
    run tcp --count -c 1
    judge 'tcp --count -c 1' $? 0
    echo '0 packets' >"$room/wanted"
    run --count port 9
    judge '--count port 9' $? 0
    echo '3 packets' >"$room/wanted"
    run -c3 --count
    judge '-c3 --count' $? 0
    for ((most = 1; most < 9; most++)); do
        first_lines "$((most < 6 ? most : 6))" >"$room/wanted"
        closing_of "$((most < 6 ? most : 6))" >"$room/wanted.errors"
        run -c "$most"
        judge "-c $most" $? 0
    done
    numbered 1 4 >"$room/wanted"
    closing '2 of 4' 2 0 0 0 1 >"$room/wanted.errors"
    run -c 2 udp or icmp
    judge '-c 2 udp or icmp' $? 0
    closing '2 of 4' 2 0 0 0 1 >"$room/wanted"
    : >"$room/wanted.errors"
    run -c 2 --quiet udp or icmp
    judge '-c 2 --quiet udp or icmp' $? 0
}

# numbered NUMBER..: the lines of `stdout` with these numbers.
numbered() {
    local number
    for number; do
        echo "${lines[number - 1]}"
    done
}

# chosen NUMBERS CLOSING ARGUMENT..: the expression is true of the records of `stdin` with these
# numbers, and this is the closing line. The same with `--quiet`.
chosen() {
    numbered $1 >"$room/wanted"
    echo "$2" >"$room/wanted.errors"
    run "${@:3}"
    judge "the expression '${*:3}'" $? 0
    cp "$room/wanted.errors" "$room/wanted"
    : >"$room/wanted.errors"
    run --quiet "${@:3}"
    judge "the expression '${*:3}', quiet" $? 0
}

# The frames of `stdin` are a datagram to port 40000, TCP and ICMPv6 behind a tag, ICMP, ARP, and 13
# bytes of a frame that had 60. The one of ICMPv6 has 74 bytes, and each other 60.
expressions() {
    cp stdin "$room/input"
    chosen 2 "$(closing '1 of 6' 1 0 0 0 0)" tcp
    for words in 'udp port 53 or icmp' 'udp  port 53|| icmp '; do
        chosen '1 4' "$(closing '2 of 6' 2 0 0 0 1)" "$words"
        chosen '1 4' "$(closing '2 of 6' 2 0 0 0 1)" $words
    done
    chosen '1 4' "$(closing '2 of 6' 2 0 0 0 1)" 'udp port' '53 or' '' icmp
    chosen '2 3' "$(closing '2 of 6' 1 1 0 0 0)" vlan
    chosen '1 2 4 5' "$(closing '4 of 6' 3 0 1 0 1)" host 192.0.2.1
    chosen '1 3 4 5 6' "$(closing '5 of 6' 2 1 2 1 1)" not tcp
    chosen '1 2 4 5 6' "$(closing '5 of 6' 3 0 2 1 1)" less 60
    chosen 3 "$(closing '1 of 6' 0 1 0 0 0)" greater 61
    chosen 6 "$(closing '1 of 6' 0 0 1 1 0)" not '(ip or ip6 or arp)'
    chosen '1 2 3 4 5 6' "$(closing '6 of 6' 3 1 2 1 1)" less 1000
    chosen '' "$(closing '0 of 6' 0 0 0 0 0)" port 9
    chosen '' "$(closing '0 of 6' 0 0 0 0 0)" less 13
    printf -v blanks '%4093s' ''
    chosen 2 "$(closing '1 of 6' 1 0 0 0 0)" "${blanks}tcp"
    chosen 2 "$(closing '1 of 6' 1 0 0 0 0)" "${blanks:1}" tcp
    for words in '' ' ' $' \t\r\n'; do
        chosen '1 2 3 4 5 6' "$(closing 6 3 1 2 1 1)" "$words"
        chosen '1 2 3 4 5 6' "$(closing 6 3 1 2 1 1)" "$words" ''
    done
    bytes 0 430 >"$room/input"
    numbered 5 >"$room/wanted"
    {
        echo 'error: the last record is cut off: it needs 16 bytes, and there are 12'
        closing '1 of 5' 0 0 1 0 0
    } >"$room/wanted.errors"
    run arp
    judge "the expression 'arp', on a capture that is cut off" $? 1
}

# Every sixth record of many, which have more lines than the program keeps before it writes them.
many_chosen() {
    cp "$room/many" "$room/input"
    awk 'NR % 6 == 3' "$room/many.wanted" >"$room/wanted"
    closing '11000 of 66000' 0 11000 0 0 0 >"$room/wanted.errors"
    run icmp6
    judge 'many records with an expression' $? 0
    in_pieces 64 icmp6
    judge 'many records with an expression, in pieces of 64 bytes' $? 0
}

# no_expression ERROR SHOWN MARK ARGUMENT..: these arguments are no expression, for this reason; they
# are shown like this, and the mark stands under this byte. Nothing is read.
no_expression() {
    : >"$room/wanted"
    {
        echo "Expression Error: $1"
        echo "$2"
        printf '%*s^\n' "$3" ''
    } >"$room/wanted.errors"
    run "${@:4}"
    judge "the expression '$2'" $? 2
    run --quiet "${@:4}"
    judge "the expression '$2', quiet" $? 2
    run -c 1 "${@:4}"
    judge "the expression '$2', with a limit" $? 2
    cp "$room/input" "$room/wanted"
    {
        "$program" "${@:4}" 2>"$room/errors"
        cat >"$room/output"
    } <"$room/input"
    judge "what the expression '$2' leaves of the input" 2 2
}

no_expressions() {
    cp stdin "$room/input"
    local operand='expected `not`, `(` or a primitive, such as `tcp` or `host`.'
    local after='expected `src`, `dst`, `port`, `portrange`, `[` or an operator.'
    local cannot='cannot stand there:' ends='It ends where more words have to follow:'
    no_expression "The word at byte 4 $cannot $after" 'tcp prot 80' 4 tcp prot 80
    no_expression "The word at byte 4 $cannot $after" 'tcp prot 80' 4 'tcp prot 80'
    no_expression "The word at byte 5 $cannot $after" 'tcp  prot 80' 5 tcp '' prot 80
    no_expression "The word at byte 0 $cannot $operand" 'no/such/file' 0 -r stdin no/such/file
    no_expression "The word at byte 0 $cannot $operand" 'stdin' 0 -r stdin stdin
    no_expression "The word at byte 4 $cannot $after" 'tcp -r' 4 -- tcp -r
    no_expression "The word at byte 1 $cannot $operand" ' --quiet' 1 -- '' --quiet
    no_expression "$ends $operand" 'not (tcp or' 11 'not (tcp or'
    no_expression "$ends $operand" 'not ' 4 not ''
    no_expression "The word at byte 5 $cannot $after" 'tcp  ?[2J? ~ ???' 5 \
        $'tcp\n\t\e[2J\a\r~ \303\251\177'
    no_expression "\`and\` and \`or\` stand together at byte 11: parentheses have to say which comes \
first, as in \`(a or b) and c\` or \`a or (b and c)\`." 'udp or tcp and port 22' 11 udp or tcp and port 22
    no_expression 'The word of pcap-filter(7) at byte 6 is not part of the language.' 'ip or mpls' 6 ip or mpls
    printf -v blanks '%4093s' ''
    : >"$room/wanted"
    # Lines nearly as long as there can be.
    {
        echo "Expression Error: The word at byte 4092 $cannot $after"
        echo "tcp${blanks:4}prot"
        printf '%4092s^\n' ''
    } >"$room/wanted.errors"
    run "tcp${blanks:4}prot"
    judge 'a refused expression of 4096 bytes' $? 2
    echo 'error: the expression has more than 4096 bytes' >"$room/wanted.errors"
    run "${blanks}arp "
    judge 'an expression of 4097 bytes' $? 2
    run "$blanks" arp
    judge 'an expression of 4097 bytes in two arguments' $? 2
    run "${blanks}arp" ''
    judge 'an expression of 4096 bytes and an empty argument' $? 2
}

# first_lines COUNT: so many lines of `stdout`.
first_lines() {
    [ "$1" -eq 0 ] || printf '%s\n' "${lines[@]:0:$1}"
}

# The records start at these bytes: 24, 100, 176, 266, 342 and 418, and the capture ends at 447.
cut_captures() {
    for ((len = 0; len < size; len++)); do
        bytes 0 "$len" >"$room/input"
        code=1
        start=0
        records=0
        for place in 24 100 176 266 342 418; do
            [ "$len" -ge "$place" ] && start=$place
            [ "$len" -ge "$place" ] && [ "$place" -gt 24 ] && records=$((records + 1))
            [ "$len" -eq "$place" ] && code=0
        done
        first_lines "$records" >"$room/wanted"
        if [ "$len" -lt 24 ]; then
            code=2
            echo "error: no capture: $len bytes are no file header" >"$room/wanted.errors"
        else
            : >"$room/wanted.errors"
            there=$((len - start))
            needs=16
            if [ "$there" -ge 16 ]; then
                case $start in
                    176) needs=90 ;;
                    418) needs=29 ;;
                    *) needs=76 ;;
                esac
            fi
            [ "$code" -eq 0 ] || echo "error: the last record is cut off: it needs $needs bytes," \
                "and there are $there" >"$room/wanted.errors"
            closing_of "$records" >>"$room/wanted.errors"
        fi
        run
        judge "the first $len bytes" $? "$code"
    done
}

# number LENGTH: a number in four bytes, the low byte first.
number() {
    local escaped
    printf -v escaped '\\%03o' $(($1 % 256)) $(($1 / 256 % 256)) $(($1 / 65536 % 256)) \
        $(($1 / 16777216))
    printf "$escaped"
}

# record START HEADER PLACE LENGTH [ORIGINAL]: a record with the time of the record that starts at
# byte START of `stdin`, a link header as `printf` takes it, and LENGTH bytes of `stdin` from PLACE
# on. The frame had ORIGINAL bytes, by default no more than these.
record() {
    printf "$2" >"$room/header"
    length=$(($(wc -c <"$room/header") + $4))
    bytes "$1" 8
    number "$length"
    number "${5:-$length}"
    cat "$room/header"
    bytes "$3" "$4"
}

# after TYPE HEADER4 HEADER6 OTHER LINE: the four packets of `stdin` after the link headers for
# IPv4 and IPv6 have the lines of `stdout`, and a frame of another protocol has its own.
after() {
    {
        bytes 0 20
        number "$1"
        record 24 "$2" 54 33
        record 100 "$2" 134 40
        record 176 "$3" 214 52
        record 266 "$2" 296 36
        if [ -n "$4" ]; then
            record 342 "$4" 372 28
        fi
    } >"$room/input"
    first_lines 4 >"$room/wanted"
    if [ -n "$4" ]; then
        echo "5 1700000005.005005 other: $5" >>"$room/wanted"
        closing 5 3 1 1 0 1 >"$room/wanted.errors"
    else
        closing 4 3 1 0 0 1 >"$room/wanted.errors"
    fi
    run
    judge "link type $1, and $5" $? 0
}

# Packets that the capture cut: after the ports, or type and code, or before that.
cut_packets() {
    {
        bytes 0 20
        number 101
        record 24 '' 54 24 33
        record 100 '' 134 23 40
        record 176 '' 214 42 52
        record 266 '' 296 21 36
    } >"$room/input"
    {
        echo '1 1700000001.001001 192.0.2.1 > 198.51.100.7 UDP 53>40000 length 13' \
            'hops 64 fragment - checksums right none cut 24/33'
        echo '2 1700000002.002002 198.51.100.7 > 192.0.2.1 TCP - length 20' \
            'hops 55 fragment - checksums right none cut 23/40'
        echo '3 1700000003.003003 2001:db8::1 > 2001:db8::1:0:0:2 IPv6-ICMP 128/0 length 12' \
            'hops 255 fragment - checksums none none cut 42/52'
        echo '4 1700000004.004004 192.0.2.1 > 198.51.100.7 ICMP - length 16' \
            'hops 64 fragment - checksums wrong none cut 21/36'
    } >"$room/wanted"
    closing 4 3 1 0 4 1 >"$room/wanted.errors"
    run
    judge 'packets that are cut' $? 0
}

# with_length LENGTH PLACE CAPTURED ORIGINAL: a record of the first packet of `stdin`, with another
# total length, identification 7 and another place as a fragment, which leaves its checksum wrong.
with_length() {
    bytes 24 8
    number "$3"
    number "$4"
    bytes 54 2
    printf "$1\0\7$2"
    bytes 62 $(($3 - 8))
}

# A total length of 0, as in packets that a network card is to cut, also of one that the capture cut;
# and a first fragment that has the ports alone.
lengths() {
    {
        bytes 0 20
        number 101
        with_length '\0\0' '\0\0' 33 33
        with_length '\0\0' '\0\0' 24 33
        with_length '\0\30' '\40\0' 24 24
    } >"$room/input"
    parties='192.0.2.1 > 198.51.100.7 UDP 53>40000'
    {
        echo "1 1700000001.001001 $parties length 13 hops 64 fragment - checksums wrong none" \
            'total length 0'
        echo "2 1700000001.001001 $parties length 4 hops 64 fragment - checksums wrong none" \
            'total length 0 cut 24/33'
        echo "3 1700000001.001001 $parties length 4 hops 64 fragment 7@0+ checksums wrong none"
    } >"$room/wanted"
    closing 3 3 0 0 1 3 >"$room/wanted.errors"
    run
    judge 'total lengths of 0, and a first fragment of four bytes' $? 0
}

# cut_ipv6 FIRST EXTENSIONS CAPTURED [LENGTH ORIGINAL]: a record of so many bytes of an IPv6 packet
# that had 80 bytes, or ORIGINAL. The number of its first extension header, its bytes after the header, and
# its payload length are as `printf` takes them.
cut_ipv6() {
    addresses='\40\1\15\270\0\0\0\0\0\0\0\0\0\0\0\1\40\1\15\270\0\0\0\0\0\1\0\0\0\0\0\2'
    printf "\140\0\0\0${4-\0\50}$1\100$addresses$2" >"$room/packet"
    number 1700000001
    number 1001
    number "$3"
    number "${5-80}"
    dd if="$room/packet" bs=1 count="$3" 2>/dev/null
}

# IPv6 packets that the capture cut among their extension headers: fragments that are not the first,
# whose payload could pass for destination options; a fragment header, hop-by-hop options and
# destination options that are not all there; and a header that is not.
cut_extensions() {
    {
        bytes 0 20
        number 101
        cut_ipv6 '\54' '\74\0\0\31\0\0\0\7\377\377\377\377\377\377\377\377' 56
        cut_ipv6 '\54' '\74\0\0\31\0\0\0\7\21\0\1\4\0\0\0\0\0\65\234\100' 60
        cut_ipv6 '\0' '\54\0\1\4\0\0\0\0\21\0\0\1' 52
        cut_ipv6 '\0' '' 40
        cut_ipv6 '\54' '\74\0\0\1\0\0\0\11\21\0\1' 51
        cut_ipv6 '\54' '' 39
    } >"$room/input"
    parties='2001:db8::1 > 2001:db8::1:0:0:2'
    {
        echo "1 1700000001.001001 $parties 60 - length 32" \
            'hops 64 fragment 7@24+ checksums none none cut 56/80'
        echo "2 1700000001.001001 $parties 60 - length 32" \
            'hops 64 fragment 7@24+ checksums none none cut 60/80'
        echo "3 1700000001.001001 $parties 44 - length 32" \
            'hops 64 fragment - checksums none none cut 52/80'
        echo "4 1700000001.001001 $parties 0 - length 40" \
            'hops 64 fragment - checksums none none cut 40/80'
        echo "5 1700000001.001001 $parties 60 - length 32" \
            'hops 64 fragment 9@0+ checksums none none cut 51/80'
        echo '6 1700000001.001001 error: IPv6 Header Error: Not enough data to decode' \
            "'IPv6 header'. 40 byte(s) would be required, but only 39 byte(s) are available" \
            'based on the slice length. cut 39/80'
    } >"$room/wanted"
    echo '6 packets: 0 IPv4, 5 IPv6, 0 other, 1 refused, 0 skipped, 6 cut,' \
        '0 with a wrong checksum' >"$room/wanted.errors"
    run
    judge 'IPv6 packets that are cut among their extension headers' $? 0
}

# Jumbograms (RFC 2675), whose payload length is 0 and in which hop-by-hop options follow the header:
# two that the capture cut, the second within these options; the same bytes of both, but none left
# out. And a packet with a payload length of 0 before a UDP header, which is then no part of it.
jumbograms() {
    jumbogram='\21\0\302\4\0\1\0\10\0\65\234\100\0\0\0\0\1\2\3\4'
    {
        bytes 0 20
        number 101
        cut_ipv6 '\0' "$jumbogram" 60 '\0\0' 65584
        cut_ipv6 '\0' "$jumbogram" 44 '\0\0' 65584
        cut_ipv6 '\0' "$jumbogram" 60 '\0\0' 60
        cut_ipv6 '\0' "$jumbogram" 44 '\0\0' 44
        cut_ipv6 '\21' "$jumbogram" 60 '\0\0' 60
    } >"$room/input"
    parties='2001:db8::1 > 2001:db8::1:0:0:2'
    {
        echo "1 1700000001.001001 $parties UDP 53>40000 length 12" \
            'hops 64 fragment - checksums none none payload length 0 cut 60/65584'
        echo "2 1700000001.001001 $parties 0 - length 4" \
            'hops 64 fragment - checksums none none payload length 0 cut 44/65584'
        echo "3 1700000001.001001 $parties UDP 53>40000 length 12" \
            'hops 64 fragment - checksums none none payload length 0'
        echo '4 1700000001.001001 error: IPv6 Extension Header Error: Not enough data to decode' \
            "'IPv6 extension header'. 2 byte(s) would be required, but only 0 byte(s) are" \
            "available based on the length calculated from the IPv6 header 'payload length' field" \
            "('IPv6 extension header' starts at overall parsed byte 40)."
        echo "5 1700000001.001001 $parties UDP - length 0" \
            'hops 64 fragment - checksums none none'
    } >"$room/wanted"
    echo '5 packets: 0 IPv4, 4 IPv6, 0 other, 1 refused, 0 skipped, 2 cut,' \
        '0 with a wrong checksum' >"$room/wanted.errors"
    run
    judge 'jumbograms' $? 0
    sed -n -e 1p -e 3p "$room/wanted" >"$room/chosen"
    mv "$room/chosen" "$room/wanted"
    echo '2 of 5 packets: 0 IPv4, 2 IPv6, 0 other, 0 refused, 0 skipped, 1 cut,' \
        '0 with a wrong checksum' >"$room/wanted.errors"
    run udp port 53
    judge 'jumbograms that an expression chooses' $? 0
}

# A later fragment of a first fragment: what follows the second fragment header is no header.
nested_fragment() {
    {
        bytes 0 20
        number 101
        number 1700000001
        number 1001
        number 68
        number 68
        printf '\140\0\0\0\0\34\54\100'
        for last in 1 2; do
            printf "\\40\\1\\15\\270\\0\\0\\0\\0\\0\\0\\0\\0\\0\\0\\0\\$last"
        done
        printf '\54\0\0\1\0\0\0\1\21\0\5\310\0\0\0\2\36\70\247\340\1\230\172\142\345\306\135\221'
    } >"$room/input"
    echo '1 1700000001.001001 2001:db8::1 > 2001:db8::2 UDP - length 12 hops 64 fragment 1@0+' \
        'checksums none none' >"$room/wanted"
    closing 1 0 1 0 0 0 >"$room/wanted.errors"
    run
    judge 'a fragment of a fragment' $? 0
}

# fronts TYPE HEADER: frames that end within this link header, at each of its bytes.
fronts() {
    printf "$2" >"$room/front"
    length=$(wc -c <"$room/front")
    {
        bytes 0 20
        number "$1"
        len=0
        while [ "$len" -lt "$length" ]; do
            number 1700000001
            number 1001
            number "$len"
            number "$len"
            dd if="$room/front" bs=1 count="$len" 2>/dev/null
            len=$((len + 1))
        done
    } >"$room/input"
    len=0
    while [ "$len" -lt "$length" ]; do
        echo "$((len + 1)) 1700000001.001001 other: truncated link header ($len bytes)"
        len=$((len + 1))
    done >"$room/wanted"
    closing "$length" 0 0 "$length" 0 0 >"$room/wanted.errors"
    run
    judge "link type $1, in a header of $length bytes" $? 0
}

link_types() {
    for type in 12 14 101 228 229; do
        after "$type" '' '' '' ''
    done
    fronts 0 '\2\0\0\0'
    after 0 '\2\0\0\0' '\30\0\0\0' '\7\0\0\0' 'family 7'
    after 0 '\2\0\0\0' '\34\0\0\0' '\0\0\0\27' 'family 23'
    after 0 '\0\0\0\2' '\0\0\0\36' '\0\0\0\0' 'family 0'
    fronts 108 '\0\0\0\2'
    after 108 '\0\0\0\2' '\0\0\0\30' '\2\0\0\0' 'family 33554432'
    tag='\201\0\0\12'
    macs='\2\0\0\0\0\7\2\0\0\0\0\1'
    fronts 1 "$macs\10\0"
    fronts 1 "$macs$tag$tag\10\0"
    after 1 "$macs\10\0" "$macs\221\0\0\12$tag\206\335" "$macs$tag$tag$tag\10\0" 'type 0x8100'
    after 1 "$macs$tag$tag\10\0" "$macs\210\250\0\12\206\335" "$macs\0\46" 'type 0x0026'
    sent='\0\0\0\1\0\6\2\0\0\0\0\1\0\0'
    fronts 113 "$sent$tag\10\0"
    after 113 "$sent\10\0" "$sent\206\335" "$sent\10\6" 'type 0x0806'
    after 113 "$sent$tag\10\0" "$sent$tag\206\335" "$sent\0\4" 'type 0x0004'
    address='\0\6\2\0\0\0\0\1\0\0'
    after 113 "\0\0\3\12$address\10\0" "\0\0\3\12$address\206\335" "\0\0\3\70$address\10\0" 'ARPHRD 824'
    sent='\0\0\0\0\0\2\0\1\0\6\2\0\0\0\0\1\0\0'
    fronts 276 "\10\0$sent"
    after 276 "\10\0$sent" "\206\335$sent" "\10\6$sent" 'type 0x0806'
    after 276 "\201\0$sent\0\12\10\0" "\201\0$sent\0\12\206\335" "\0\4$sent" 'type 0x0004'
    after 276 "\10\0$sent" "\206\335$sent" "\10\0\0\0\0\0\0\2\3\43$address" 'ARPHRD 803'
    framings
}

# Link types whose headers tell where they end.
framings() {
    after 8 '\0\105\0\0\0\0\0\0\0\0\0\0\0\0\0\0' '\1\105\0\0\0\0\0\0\0\0\0\0\0\0\0\0' '' ''
    after 9 '\377\3\0\41' '\127' '\200\41' 'protocol 0x8021'
    after 50 '\377\3\41' '\17\0\206\335' '\217\0\200\65' 'type 0x8035'
    fronts 104 '\17\0\10\0'
    after 104 '\17\0\10\0' '\217\0\206\335' '\217\0\40\0' 'type 0x2000'
    fronts 107 '\30\101\3\0\200\0\0\0\10\0'
    after 107 '\30\101\3\314' '\30\100\3\3\216' '\0\1\3\10' 'NLPID 0x08'
    after 107 '\30\101\3\0\200\0\0\0\10\0' '\30\101\206\335' '\1\3\314\105' 'unknown link header'
    after 107 '\0\1\3\314' '\2\1\3\0\200\0\0\0\206\335' '\2\1\177' 'unknown link header'
    addresses='\0\0\2\0\0\0\0\1\2\0\0\0\0\2\2\0\0\0\0\3\0\0'
    snap='\252\252\3\0\0\0'
    fourth='\2\0\0\0\0\4'
    for type in 105 127; do
        top=''
        if [ "$type" = 127 ]; then
            top='\0\0\11\0\4\0\0\0\2'
        fi
        fronts "$type" "$top\210\1$addresses\0\0$snap\10\0"
        after "$type" "$top\10\1$addresses$snap\10\0" "$top\210\2$addresses\0\0$snap\206\335" \
            "$top\210\101$addresses\0\0" encrypted
        after "$type" "$top\10\3$addresses$fourth$snap\10\0" \
            "$top\210\203$addresses$fourth\0\0\0\0\0\0$snap\206\335" \
            "$top\200\0$addresses" 'management frame'
    done
    after 127 '\0\0\11\0\2\0\0\0\40\210\1'"$addresses\0\0\0\0$snap\10\0" \
        '\0\0\10\0\0\0\0\0\10\2'"$addresses$snap\206\335" '\0\0\10\0\0\0\0\0\324\0' 'control frame'
}

# format MAGIC REST FRACTION: a file with this magic number, and with the rest of its header and a
# record's header as `printf` takes them, has the first packet of `stdin` at this part of a second.
format() {
    {
        printf "$1$2"
        bytes 54 33
    } >"$room/input"
    echo "1 1700000001.$3 192.0.2.1 > 198.51.100.7 UDP 53>40000 length 13 hops 64 fragment -" \
        'checksums right right' >"$room/wanted"
    closing 1 1 0 0 0 0 >"$room/wanted.errors"
    run
    judge "the magic number $1" $? 0
}

# Both byte orders and both resolutions, with upper bits of the link type set.
formats() {
    zeros='\0\0\0\0\0\0\0\0'
    low="\2\0\4\0$zeros"'\0\0\4\0\145\0\0\44\1\361\123\145\351\3\0\0\41\0\0\0\41\0\0\0'
    high="\0\2\0\4$zeros"'\0\4\0\0\44\0\0\145\145\123\361\1\0\0\3\351\0\0\0\41\0\0\0\41'
    format '\324\303\262\241' "$low" 001001
    format '\115\74\262\241' "$low" 000001001
    format '\241\262\303\324' "$high" 001001
    format '\241\262\74\115' "$high" 000001001
}

# no_capture PLACE BYTE ERROR: `stdin` with this byte, as `printf` takes it, at PLACE is refused.
no_capture() {
    printf "${capture:0:4 * $1}$2${capture:4 * $1 + 4}" >"$room/input"
    : >"$room/wanted"
    echo "error: $3" >"$room/wanted.errors"
    run
    judge "$3" $? 2
}

# packed MAGIC FORMAT: what begins with these bytes, as `printf` takes them, is of this format.
packed() {
    {
        printf "$1"
        bytes 4 100
    } >"$room/input"
    : >"$room/wanted"
    echo "error: no capture: this is $2" >"$room/wanted.errors"
    run
    judge "$2" $? 2
}

no_captures() {
    no_capture 0 '\325' 'no capture: the magic number is 0xd5c3b2a1'
    no_capture 0 '\0' 'no capture: the magic number is 0x00c3b2a1'
    no_capture 4 '\1' 'no capture: the version is 1.4'
    no_capture 6 '\5' 'no capture: the version is 2.5'
    no_capture 20 '\223' 'link type 147 (USER0) is not read'
    no_capture 20 '\300' 'link type 192 (PPI) is not read'
    no_capture 20 '\167' 'link type 119 (IEEE802_11_PRISM) is not read'
    no_capture 20 '\2' 'link type 2 is not read'
    packed '\37\213\10\0' 'gzip: zcat FILE | ipcap'
    packed '\50\265\57\375' 'zstd: zstdcat FILE | ipcap'
    packed '\375\67\172\130' 'xz: xzcat FILE | ipcap'
    packed '\102\132\150\71' 'bzip2: bzcat FILE | ipcap'
    packed '\4\42\115\30' 'lz4: lz4cat FILE | ipcap'
    packed '\120\113\3\4' 'zip: unzip -p FILE | ipcap'
    packed 'snoo' 'snoop: tshark -r FILE -w - | ipcap'
    packed '\64\315\262\241' 'a modified pcap: tshark -r FILE -w - | ipcap'
}

# A record of one byte more than is read, the first packet of `stdin`, and a record as long as the
# first one, of which there are 9 bytes.
long_records() {
    {
        bytes 0 20
        number 101
        bytes 24 8
        number 262145
        number 262146
        head -c 262145 /dev/zero
        record 24 '' 54 33
        bytes 100 8
        number 262145
        number 262145
        head -c 9 /dev/zero
    } >"$room/input"
    {
        echo '1 1700000001.001001 skipped: record too long (262145 bytes)'
        echo '2 1700000001.001001 192.0.2.1 > 198.51.100.7 UDP 53>40000 length 13 hops 64' \
            'fragment - checksums right right'
        echo '3 1700000002.002002 skipped: record too long (262145 bytes)'
    } >"$room/wanted"
    {
        echo 'error: the last record is cut off: it needs 262161 bytes, and there are 25'
        echo '3 packets: 1 IPv4, 0 IPv6, 0 other, 0 refused, 2 skipped, 1 cut,' \
            '0 with a wrong checksum'
    } >"$room/wanted.errors"
    run
    judge 'records that are too long' $? 1
    in_pieces 128
    judge 'records that are too long, in pieces of 128 bytes' $? 1
    too_long '1 of 3' 1 2 udp
    too_long '1 of 3' 1 2 less 1000
    too_long '0 of 3' 0 '' greater 262145
    too_long '0 of 3' 0 '' not udp
    cp "$room/input" "$room/wanted"
    {
        echo 'error: the last record is cut off: it needs 262161 bytes, and there are 25'
        echo '3 packets: 1 IPv4, 0 IPv6, 0 other, 0 refused, 2 skipped, 1 cut,' \
            '0 with a wrong checksum'
    } >"$room/wanted.errors"
    run -w -
    judge 'records that are too long, written' $? 1
    in_pieces 128 -w -
    judge 'records that are too long, written, in pieces of 128 bytes' $? 1
    head -c 262185 "$room/input" >"$room/wanted"
    echo '1 packets: 0 IPv4, 0 IPv6, 0 other, 0 refused, 1 skipped, 1 cut,' \
        '0 with a wrong checksum' >"$room/wanted.errors"
    run -w - -c 1
    judge 'a record that is too long, written' $? 0
    {
        bytes 0 20
        number 101
        tail -c +262186 "$room/input" | head -c 49
    } >"$room/wanted"
    {
        echo 'error: the last record is cut off: it needs 262161 bytes, and there are 25'
        echo '1 of 3 packets: 1 IPv4, 0 IPv6, 0 other, 0 refused, 2 skipped, 0 cut,' \
            '0 with a wrong checksum'
    } >"$room/wanted.errors"
    run -w - udp
    judge 'records that are too long, written with an expression' $? 1
}

# too_long COUNT IPV4 NUMBER ARGUMENT..: no expression is true of a record that is too long.
too_long() {
    if [ -n "$3" ]; then
        echo "$3 1700000001.001001 192.0.2.1 > 198.51.100.7 UDP 53>40000 length 13 hops 64" \
            'fragment - checksums right right'
    fi >"$room/wanted"
    {
        echo 'error: the last record is cut off: it needs 262161 bytes, and there are 25'
        echo "$1 packets: $2 IPv4, 0 IPv6, 0 other, 0 refused, 2 skipped, 0 cut," \
            '0 with a wrong checksum'
    } >"$room/wanted.errors"
    run "${@:4}"
    judge "records that are too long, and the expression '${*:4}'" $? 1
}

# long_record LENGTH: a record of so many bytes: the first packet of `stdin`, and zeros.
long_record() {
    bytes 24 8
    number "$1"
    number "$1"
    bytes 54 33
    head -c $(($1 - 33)) /dev/zero
}

# Records of the greatest length that is read, of a byte less and of a byte more. From a file, the
# first read gets the first of these but for its end, and a later read gets the third whole.
longest_records() {
    {
        bytes 0 20
        number 101
        long_record 262144
        long_record 262143
        long_record 262144
        long_record 262145
        record 100 '' 134 40
    } >"$room/input"
    {
        echo "1${lines[0]#1}"
        echo "2${lines[0]#1}"
        echo "3${lines[0]#1}"
        echo '4 1700000001.001001 skipped: record too long (262145 bytes)'
        echo "5${lines[1]#2}"
    } >"$room/wanted"
    echo '5 packets: 4 IPv4, 0 IPv6, 0 other, 0 refused, 1 skipped, 0 cut,' \
        '0 with a wrong checksum' >"$room/wanted.errors"
    run
    judge 'the longest records' $? 0
    cat "$room/input" | "$program" >"$room/output" 2>"$room/errors"
    judge 'the longest records, from a pipe' $? 0
    cp "$room/input" "$room/wanted"
    run -w -
    judge 'the longest records, written' $? 0
    cat "$room/input" | "$program" -w - >"$room/output" 2>"$room/errors"
    judge 'the longest records, written, from a pipe' $? 0
}

# little PLACE: the number of 32 bits at this place of `stdin`, whose low byte stands first.
little() {
    od -An -v -tu4 -j "$1" -N 4 stdin | tr -d ' '
}

# block TYPE [BYTES]: a block of pcapng of this type, with these bytes, as `printf` takes them, and
# then those of the file `body`.
block() {
    local length
    {
        printf "${2-}"
        cat "$room/body"
    } >"$room/block"
    length=$(wc -c <"$room/block")
    head -c $(((4 - length % 4) % 4)) /dev/zero >>"$room/block"
    length=$((12 + (length + 3) / 4 * 4))
    number "$1"
    number $length
    cat "$room/block"
    number $length
}

# section [VERSION]: a section header.
section() {
    : >"$room/body"
    block 168627466 "\115\74\53\32${1-\1\0\0\0}\377\377\377\377\377\377\377\377"
}

# interface TYPE [OPTIONS]: an interface of this link type, with these options.
interface() {
    : >"$room/body"
    block 1 "$(printf '\\%03o\\%03o' $(($1 % 256)) $(($1 / 256)))\0\0\0\0\0\0${2-}"
}

# ticks NUMBER: a timestamp, whose upper half stands first.
ticks() {
    number $(($1 / 4294967296))
    number $(($1 % 4294967296))
}

# enhanced ID PLACE [UNIT]: the record at this place of `stdin` as a packet of the interface with
# this number. Its time is counted in microseconds, or in so many units for each.
enhanced() {
    local length
    length=$(little $(($2 + 8)))
    {
        number "$1"
        ticks $((($(little "$2") * 1000000 + $(little $(($2 + 4)))) * ${3-1}))
        number "$length"
        number "$(little $(($2 + 12)))"
        bytes $(($2 + 16)) "$length"
    } >"$room/body"
    block 6
}

# places: where the records of `stdin` begin.
places() {
    local place=24
    while [ $place -lt "$size" ]; do
        echo $place
        place=$((place + 16 + $(little $((place + 8)))))
    done
}

# The same packets in pcapng, in microseconds and in nanoseconds, whole and in pieces, and written
# again. A block of names, one of statistics and one of nobody's stand between them.
pcapng_captures() {
    local place other
    printf 'names' >"$room/body"
    other="$(block 4 | od -An -v -to1 | tr -d '\n' | tr ' ' '\\')"
    {
        section
        interface 1
        for place in $(places); do
            enhanced 0 "$place"
            printf "$other"
        done
    } >"$room/input"
    cp "$room/input" "$room/pcapng"
    cp stdout "$room/wanted"
    closing_of 6 >"$room/wanted.errors"
    run
    judge 'pcapng' $? 0
    in_pieces 1
    judge 'pcapng, a byte at a time' $? 0
    cp "$room/pcapng" "$room/wanted"
    run -w -
    judge 'pcapng, written' $? 0
    in_pieces 7 -w -
    judge 'pcapng, written, 7 bytes at a time' $? 0
    head -n 2 stdout >"$room/wanted"
    closing_of 2 >"$room/wanted.errors"
    run -c 2
    judge 'two packets of pcapng' $? 0
    {
        section
        interface 1
        enhanced 0 24
        for place in $(places); do
            printf "$other"
        done
    } >"$room/wanted"
    closing '1 of 6' 1 0 0 0 0 >"$room/wanted.errors"
    run -w - 'udp and src host 192.0.2.1'
    judge 'one packet of pcapng, written with all other blocks' $? 0
    {
        section
        interface 1 '\11\0\1\0\11\0\0\0\0\0\0\0'
        for place in $(places); do
            enhanced 0 "$place" 1000
        done
    } >"$room/input"
    sed 's/\(\.[0-9]*\)/\1000/' stdout >"$room/wanted"
    closing_of 6 >"$room/wanted.errors"
    run
    judge 'pcapng in nanoseconds' $? 0
}

# Packets of several interfaces, with link types of their own, and one that is not read; a section in
# the other byte order, with a packet that has no time; and a packet of the kind that is obsolete.
interfaces() {
    local packet
    packet=$(bytes 54 33 | od -An -v -to1 | tr -d '\n' | tr ' ' '\\')
    {
        section
        interface 1
        interface 101
        interface 147
        enhanced 0 24
        {
            number 1
            ticks 1700000001001001
            number 33
            number 33
            bytes 54 33
        } >"$room/body"
        block 6
        {
            number 2
            ticks 1700000001001001
            number 33
            number 34
            bytes 54 33
        } >"$room/body"
        block 6
        {
            printf '\1\0\0\0'
            ticks 1700000001001001
            number 33
            number 33
            bytes 54 33
        } >"$room/body"
        block 2
        printf '\12\15\15\12\0\0\0\34\32\53\74\115\0\1\0\0\377\377\377\377\377\377\377\377\0\0\0\34'
        printf '\0\0\0\1\0\0\0\24\0\145\0\0\0\0\0\0\0\0\0\24'
        printf '\0\0\0\3\0\0\0\64\0\0\0\41'"$packet"'\0\0\0\0\0\0\64'
    } >"$room/input"
    {
        echo "1${lines[0]#1}"
        echo "2${lines[0]#1}"
        echo '3 1700000001.001001 other: link type 147 (USER0) cut 33/34'
        echo "4${lines[0]#1}"
        echo "5 0.000000 ${lines[0]#* * }"
    } >"$room/wanted"
    closing 5 4 0 1 1 0 >"$room/wanted.errors"
    run
    judge 'packets of several interfaces' $? 0
    numbered 1 >"$room/wanted"
    {
        echo "2${lines[0]#1}"
        echo "4${lines[0]#1}"
        echo "5 0.000000 ${lines[0]#* * }"
    } >>"$room/wanted"
    closing '4 of 5' 4 0 0 0 0 >"$room/wanted.errors"
    run 'not tcp'
    judge 'no expression is true of a packet whose link type is not read' $? 0
}

# refused_block PLACE REASON: a packet, and the blocks of the file `blocks`, of which the one at this
# byte is refused, and another packet after them, which is not listed.
refused_block() {
    {
        section
        interface 1
        enhanced 0 24
        cat "$room/blocks"
        enhanced 0 24
    } >"$room/input"
    numbered 1 >"$room/wanted"
    {
        echo "error: the block at byte $1 is refused: $2"
        closing 1 1 0 0 0 0
    } >"$room/wanted.errors"
    run
    judge "pcapng: $2" $? 1
}

refused_blocks() {
    local after=140
    : >"$room/body"
    {
        number 6
        number 33
    } >"$room/blocks"
    refused_block $after 'its length is 33 bytes'
    {
        number 6
        number 28
    } >"$room/blocks"
    refused_block $after 'its length is 28 bytes'
    {
        number 4
        number 12
        number 16
    } >"$room/blocks"
    refused_block $after 'its length is 12 bytes, and 16 at its end'
    enhanced 1 24 >"$room/blocks"
    refused_block $after 'its packet is of interface 1, and there are 1'
    {
        number 0
        ticks 0
        number 5
        number 5
        printf abcd
    } >"$room/body"
    block 6 >"$room/blocks"
    refused_block $after 'it has room for 4 bytes of its packet, and not for 5'
    section '\2\0\0\0' >"$room/blocks"
    refused_block $after 'the version is 2.0'
    section | sed 's/\x4d\x3c/\x4d\x3d/' >"$room/blocks"
    refused_block $after 'the byte-order magic is 0x4d3d2b1a'
    interface 1 '\11\0\1\0\24\0\0\0' >"$room/blocks"
    refused_block $after 'its unit of time is too small (if_tsresol 20)'
    interface 1 '\16\0\4\0\0\0\0\0' >"$room/blocks"
    refused_block $after 'its option 14 at byte 16 has 4 bytes'
    interface 1 '\2\0\10\0abcd' >"$room/blocks"
    refused_block $after 'its option 2 at byte 16 has 8 bytes'
    for _ in {1..256}; do
        interface 1
    done >"$room/blocks"
    refused_block $((after + 255 * 20)) 'the section has 256 interfaces already'
    head -c 400000 /dev/zero >"$room/body"
    interface 1 >"$room/blocks"
    : >"$room/body"
    {
        number 1
        number 400000
        head -c 400000 /dev/zero
    } >"$room/blocks"
    refused_block $after 'it is too long (400000 bytes)'
}

# A packet and blocks that are longer than what is read: a packet of so many bytes, a block of names,
# and at the end a packet again whose block ends with another length, or is cut off.
long_blocks() {
    long_packet() {
        number 6
        number 400032
        number 0
        ticks 1700000001001001
        number 400000
        number 400000
        bytes 40 60
        head -c 399940 /dev/zero
        number "$1"
    }
    {
        section
        interface 1
        long_packet 400032
        number 4
        number 400000
        head -c 399988 /dev/zero
        number 400000
        enhanced 0 24
    } >"$room/pcapng"
    {
        echo '1 1700000001.001001 skipped: record too long (400000 bytes)'
        echo "2${lines[0]#1}"
    } >"$room/lines"
    cp "$room/pcapng" "$room/input"
    cp "$room/lines" "$room/wanted"
    echo '2 packets: 1 IPv4, 0 IPv6, 0 other, 0 refused, 1 skipped, 0 cut,' \
        '0 with a wrong checksum' >"$room/wanted.errors"
    run
    judge 'long blocks' $? 0
    in_pieces 1000
    judge 'long blocks, 1000 bytes at a time' $? 0
    cp "$room/pcapng" "$room/wanted"
    run -w -
    judge 'long blocks, written' $? 0
    in_pieces 1001 -w -
    judge 'long blocks, written, 1001 bytes at a time' $? 0
    {
        section
        interface 1
        number 4
        number 400000
        head -c 399988 /dev/zero
        number 400000
        enhanced 0 24
    } >"$room/wanted"
    echo '1 of 2 packets: 1 IPv4, 0 IPv6, 0 other, 0 refused, 1 skipped, 0 cut,' \
        '0 with a wrong checksum' >"$room/wanted.errors"
    run -w - udp
    judge 'long blocks, and an expression' $? 0
    {
        cat "$room/pcapng"
        long_packet 400036
        enhanced 0 24
    } >"$room/input"
    {
        cat "$room/lines"
        echo '3 1700000001.001001 skipped: record too long (400000 bytes)'
    } >"$room/wanted"
    {
        echo 'error: the block at byte 800172 is refused: its length is 400032 bytes,' \
            'and 400036 at its end'
        echo '3 packets: 1 IPv4, 0 IPv6, 0 other, 0 refused, 2 skipped, 0 cut,' \
            '0 with a wrong checksum'
    } >"$room/wanted.errors"
    run
    judge 'a long block that ends with another length' $? 1
    {
        cat "$room/pcapng"
        long_packet 400032 | head -c 1000
    } >"$room/input"
    {
        echo 'error: the last record is cut off: it needs 400032 bytes, and there are 1000'
        echo '3 packets: 1 IPv4, 0 IPv6, 0 other, 0 refused, 2 skipped, 0 cut,' \
            '0 with a wrong checksum'
    } >"$room/wanted.errors"
    run
    judge 'a long block that is cut off' $? 1
    cp "$room/input" "$room/wanted"
    run -w -
    judge 'a long block that is cut off, written' $? 1
    {
        cat "$room/pcapng"
        long_packet 400032 | head -c 20
    } >"$room/input"
    cp "$room/lines" "$room/wanted"
    {
        echo 'error: the last record is cut off: it needs 400032 bytes, and there are 20'
        echo '2 packets: 1 IPv4, 0 IPv6, 0 other, 0 refused, 1 skipped, 0 cut,' \
            '0 with a wrong checksum'
    } >"$room/wanted.errors"
    run
    judge 'a long block that is cut off in its head' $? 1
}

# The capture in pcapng, cut at some of its bytes: the whole packets are listed. The section header
# and the interface have 48 bytes.
cut_pcapng() {
    local len place listed all ends=()
    {
        section
        interface 1
        for place in $(places); do
            enhanced 0 "$place"
        done
    } >"$room/pcapng"
    all=$(wc -c <"$room/pcapng")
    len=48
    for place in $(places); do
        len=$((len + 32 + ($(little $((place + 8))) + 3) / 4 * 4))
        ends+=($len)
    done
    [ "$len" -eq "$all" ] || fail 'the capture in pcapng' 'it has another length'
    for ((len = 4; len < all; len += 5)); do
        listed=0
        for place in "${ends[@]}"; do
            [ "$place" -gt $len ] || listed=$((listed + 1))
        done
        [ $len -ne 28 ] && [ $len -ne 48 ] || continue
        [ $listed -eq 0 ] || [ "${ends[listed - 1]}" -ne $len ] || continue
        head -c $len "$room/pcapng" >"$room/input"
        first_lines $listed >"$room/wanted"
        run
        if [ $? -ne 1 ]; then
            fail "pcapng cut to $len bytes" 'it did not end with 1'
        elif ! cmp -s "$room/output" "$room/wanted"; then
            fail "pcapng cut to $len bytes" 'it did not list the whole packets'
        elif ! head -n 1 "$room/errors" | grep -q '^error: the last record is cut off: it needs '; then
            fail "pcapng cut to $len bytes" 'it did not say that it is cut off'
        else
            pass
        fi
    done
}

# Seconds since 1970 began, and the texts that Python's `datetime` has for them; the last second has
# a year of five digits, and stays a number.
seconds_and_dates='
    0:1970-01-01T00:00:00 1:1970-01-01T00:00:01 59:1970-01-01T00:00:59 60:1970-01-01T00:01:00
    3599:1970-01-01T00:59:59 3600:1970-01-01T01:00:00 43200:1970-01-01T12:00:00
    46800:1970-01-01T13:00:00 86399:1970-01-01T23:59:59 86400:1970-01-02T00:00:00
    68169599:1972-02-28T23:59:59 68169600:1972-02-29T00:00:00 68255999:1972-02-29T23:59:59
    68256000:1972-03-01T00:00:00 946684799:1999-12-31T23:59:59 946684800:2000-01-01T00:00:00
    951782399:2000-02-28T23:59:59 951782400:2000-02-29T00:00:00 951868799:2000-02-29T23:59:59
    951868800:2000-03-01T00:00:00 1709164799:2024-02-28T23:59:59 1709164800:2024-02-29T00:00:00
    1709251199:2024-02-29T23:59:59 1709251200:2024-03-01T00:00:00 1795773141:2026-11-27T09:52:21
    2147483647:2038-01-19T03:14:07 2147483648:2038-01-19T03:14:08 4107542399:2100-02-28T23:59:59
    4107542400:2100-03-01T00:00:00 253402214400:9999-12-31T00:00:00
    253402300799:9999-12-31T23:59:59
    253402300800:253402300800
'

# Times as dates: those of the capture, and those of the table in pcapng.
dates() {
    local case text
    cp stdin "$room/input"
    sed 's/ 170000000\([0-9]\)\.\([0-9]*\)/ 2023-11-14T22:13:2\1.\2Z/' stdout >"$room/wanted"
    closing_of 6 >"$room/wanted.errors"
    run --utc
    judge 'dates' $? 0
    {
        section
        interface 101 '\11\0\1\0\0\0\0\0\0\0\0\0'
        for case in $seconds_and_dates; do
            {
                number 0
                ticks "${case%%:*}"
                number 33
                number 33
                bytes 54 33
            } >"$room/body"
            block 6
        done
    } >"$room/input"
    number=0
    for case in $seconds_and_dates; do
        number=$((number + 1))
        text=${case#*:}.000000Z
        [ $number -lt 32 ] || text=${text%Z}
        echo "$number $text ${lines[0]#* * }"
    done >"$room/wanted"
    closing 32 32 0 0 0 0 >"$room/wanted.errors"
    run --utc
    judge 'the days of years' $? 0
}

# in_hex HEX: these bytes.
in_hex() {
    printf "$(sed 's/../\\x&/g' <<<"$1")"
}

# hex_record SECONDS[.MICROSECONDS] HEX [ORIGINAL]: a record with these bytes, of a packet with as many
# or ORIGINAL bytes.
hex_record() {
    local fraction=0
    [[ $1 = *.* ]] && fraction=$((10#${1#*.}))
    number "${1%.*}"
    number "$fraction"
    number $((${#2} / 2))
    number "${3:-$((${#2} / 2))}"
    in_hex "$2"
}

# Frames with fragments, which Scapy made: two datagrams with the same identification in VLANs 5 and
# 6, one that is contradicted twice, the front of another, one of IPv6 whose end comes first, and the
# end of that front.
ether=02000000000202000000000108004500
vlan=020000000002020000000001810000
ipv6=02000000000202000000000186dd6000000000
ends=c0000201c6336407
ends6=20010db800000000000000000000000120010db8000000000000000000000002
fragments=(
    "${vlan}050800450000240102200040116d8b${ends}138800350014cb85616c70686120696e"
    "${vlan}060800450000240102200040116d8b${ends}177000350014c789627261766f20696e"
    "${vlan}060800450000180102000240118d95${ends}2074776f"
    "${vlan}050800450000180102000240118d95${ends}2074776f"
    "${ether}00240103200040116d8a${ends}1b58003500106192636861726c69652e"
    "${ether}00240103200040116d8a${ends}1b58003500106192636861726c696521"
    "${ether}00240103200040116d8a${ends}1b58003500106192636861726c696521"
    "${ether}00240104200040116d89${ends}1f4000350014c0c864656c746120696e"
    "${ipv6}0c2c3c${ends6}110000100000000574776f2e"
    "${ipv6}182c3c${ends6}110000010000000523280035001440f26563686f20696e20"
    "${ether}00180104000240118d93${ends}2074776f"
)

# fragmented LAST: a capture of them, the last one so many seconds after the others.
fragmented() {
    local place
    bytes 0 24
    for ((place = 0; place < 11; place++)); do
        hex_record $((1700000000 + (place == 10 ? $1 : 0))) "${fragments[place]}"
    done
}

# fragment NUMBER DETAIL LENGTH PLACE VERDICT [HEADER]: the line on one of them; that on the whole
# packet if PLACE is `-`.
fragment() {
    local time=1700000000 pair='192.0.2.1 > 198.51.100.7' hops=64 header=${6:-right}
    [[ $1 = 9 || $1 = 10 ]] && pair='2001:db8::1 > 2001:db8::2' hops=60 header=none
    [ "$1" = 11 ] && time=1700000060
    echo "$1 $time.000000 $pair UDP $2 length $3 hops $hops fragment $4 checksums $header $5"
}

# datagrams PACKETS IPV4 IPV6 CUT WHOLE DISCARDED INCOMPLETE: the closing line with --reassemble.
datagrams() {
    echo "$(closing "$1" "$2" "$3" 0 "$4" 0); datagrams: $5 reassembled, $6 discarded, $7 incomplete"
}

# timed SECONDS PLACE: one of the fragments as a packet of the first interface, with this time.
timed() {
    local length=$((${#fragments[$2]} / 2))
    {
        number 0
        ticks $(($1 * 1000000))
        number $length
        number $length
        in_hex "${fragments[$2]}"
    } >"$room/body"
    block 6
}

# first_fragments COUNT: the fronts of so many other datagrams, a second later.
first_fragments() {
    local k
    for ((k = 0; k < $1; k++)); do
        hex_record 1700000001 "${ether}002400$(printf %02x "$k")20004011$(printf %04x \
            $((0x6e8d - k)))${ends}138800350014cb85616c70686120696e"
    done
}

# A front; a forged end, which would complete it, and a forged copy of the front, which contradicts
# it, both with a wrong header checksum, so that a host discards them (RFC 1122 section 3.2.1.2); and
# the end.
forged_fragments() {
    {
        bytes 0 24
        hex_record 1700000000 "${fragments[7]}"
        hex_record 1700000000 "${ether}00180104000240110000${ends}206f6e65"
        hex_record 1700000000 "${ether}00240104200040116d8a${ends}1f4000350014c0c86f6d65676120696e"
        hex_record 1700000000 "${fragments[10]}"
    } >"$room/input"
    {
        fragment 1 '8000>53' 16 260@0+ none
        fragment 2 - 4 260@16 none wrong
        fragment 3 '8000>53' 16 260@0+ none wrong
        fragment 4 '8000>53' 20 - 'right reassembled'
    } >"$room/wanted"
    datagrams 4 4 0 0 1 0 0 | sed 's/0 with/2 with/' >"$room/wanted.errors"
    run --reassemble
    judge 'forged fragments' $? 0
    datagrams 3 3 0 0 0 0 1 | sed 's/0 with/2 with/' >"$room/wanted"
    : >"$room/wanted.errors"
    run --reassemble --quiet -c 3
    judge 'forged fragments, without the end' $? 0
}

# Fragments, each as it came and put together: in VLANs of their own, contradicted, in the other
# order, too late, for want of room, cut by the capture, with dates, and about the start of 1970.
reassembled() {
    fragmented 60 >"$room/input"
    {
        fragment 1 '5000>53' 16 258@0+ none
        fragment 2 '6000>53' 16 258@0+ none
        fragment 3 - 4 258@16 none
        fragment 4 - 4 258@16 none
        fragment 5 '7000>53' 16 259@0+ none
        fragment 6 '7000>53' 16 259@0+ none
        fragment 7 '7000>53' 16 259@0+ none
        fragment 8 '8000>53' 16 260@0+ none
        fragment 9 - 4 5@16 none
        fragment 10 '9000>53' 16 5@0+ none
        fragment 11 - 4 260@16 none
    } >"$room/wanted"
    closing 11 9 2 0 0 0 >"$room/wanted.errors"
    run
    judge 'fragments as they came' $? 0
    cp "$room/wanted" "$room/pieces"
    {
        fragment 3 '6000>53' 20 - 'right reassembled'
        fragment 4 '5000>53' 20 - 'right reassembled'
        fragment 10 '9000>53' 20 - 'right reassembled'
    } >"$room/wholes"
    {
        sed -n 1,2p "$room/pieces"
        sed -n 1,2p "$room/wholes"
        sed -n 5,9p "$room/pieces"
        sed -n 3p "$room/wholes"
        sed -n 11p "$room/pieces"
    } >"$room/wanted"
    datagrams 11 9 2 0 3 1 2 >"$room/wanted.errors"
    run --reassemble
    judge 'fragments put together' $? 0
    in_pieces 1 --reassemble
    judge 'fragments put together, a byte at a time' $? 0
    cp "$room/wanted.errors" "$room/wanted"
    : >"$room/wanted.errors"
    run --reassemble --quiet
    judge 'fragments put together, quiet' $? 0
    echo '9 packets' >"$room/wanted"
    run --reassemble --count udp dst port 53
    judge 'fragments put together, those of a port' $? 0
    echo '0 packets' >"$room/wanted"
    run --reassemble --count greater 75
    judge 'fragments put together, by the length of the whole' $? 0
    sed -n 1p "$room/wholes" | cat <(sed -n 2p "$room/pieces") - >"$room/wanted"
    datagrams '2 of 11' 2 0 0 3 1 2 >"$room/wanted.errors"
    run --reassemble port 6000
    judge 'fragments put together, with an expression' $? 0
    sed -n 1,2p "$room/pieces" | cat - <(sed -n 1p "$room/wholes") >"$room/wanted"
    datagrams 3 3 0 0 1 0 1 >"$room/wanted.errors"
    run --reassemble -c 3
    judge 'fragments put together, three packets' $? 0
    closing_of 6 | sed 's/$/; datagrams: 0 reassembled, 0 discarded, 0 incomplete/' \
        >"$room/wanted.errors"
    cp stdout "$room/wanted"
    cp stdin "$room/input"
    run --reassemble
    judge 'no fragments to put together' $? 0
    sed 's/ 170000000\([0-9]\)\.\([0-9]*\)/ 2023-11-14T22:13:2\1.\2Z/' stdout >"$room/wanted"
    run --reassemble --utc
    judge 'no fragments to put together, with dates' $? 0
    : >"$room/wanted.errors"
    fragmented 59 >"$room/input"
    datagrams 11 9 2 0 4 1 0 >"$room/wanted"
    run --reassemble --quiet
    judge 'a fragment after 59 seconds' $? 0
    # A front, and its end 59.1 and 60 seconds later.
    for end in 000000 900000; do
        {
            bytes 0 24
            hex_record 1700000000.900000 "${fragments[7]}"
            hex_record "1700000060.$end" "${fragments[10]}"
        } >"$room/input"
        datagrams 2 2 0 0 $((end == 0)) 0 $((end == 0 ? 0 : 2)) >"$room/wanted"
        run --reassemble --quiet
        judge "a fragment at 60.$end seconds, after one at 0.9" $? 0
    done
    # The fronts of 32 others, a front and one more in the same second, and its end: the oldest go.
    {
        bytes 0 24
        first_fragments 32
        hex_record 1700000001.500000 "${fragments[7]}"
        hex_record 1700000001.600000 "${fragments[4]}"
        hex_record 1700000001.700000 "${fragments[10]}"
    } >"$room/input"
    datagrams 35 35 0 0 1 0 33 >"$room/wanted"
    run --reassemble --quiet
    judge 'fragments of one second' $? 0
    # A front, those of others, and its end: one more than there is room for pushes out the oldest.
    for others in 31 32; do
        {
            bytes 0 24
            hex_record 1700000000 "${fragments[7]}"
            first_fragments "$others"
            hex_record 1700000002 "${fragments[10]}"
        } >"$room/input"
        datagrams $((others + 2)) $((others + 2)) 0 0 $((32 - others)) 0 \
            $((others == 31 ? 31 : 34)) >"$room/wanted"
        run --reassemble --quiet
        judge "a fragment after those of $others other datagrams" $? 0
    done
    {
        bytes 0 24
        hex_record 1700000000 "${fragments[7]:0:98}" 50
        hex_record 1700000000 "${fragments[10]}"
    } >"$room/input"
    datagrams 2 2 0 0 0 0 1 | sed 's/0 cut/1 cut/' >"$room/wanted"
    run --reassemble --quiet
    judge 'a fragment that the capture cut' $? 0
    for apart in 60 59; do
        {
            section
            interface 1 '\16\0\10\0\234\377\377\377\377\377\377\377'
            timed 50 7
            timed $((50 + apart)) 10
        } >"$room/input"
        datagrams 2 2 0 0 $((apart == 59)) 0 $((apart == 60 ? 2 : 0)) >"$room/wanted"
        run --reassemble --quiet
        judge "fragments before and after the start of 1970, $apart seconds apart" $? 0
    done
}

# The command lines of README.md, with what they print: standard output, and then standard error.
readme() {
    local folder=$room/readme line command='' place here=$PWD
    rm -rf "$folder"
    mkdir "$folder"
    cp stdin "$folder/trace.pcap"
    {
        section
        interface 1
        for place in $(places); do
            enhanced 0 "$place"
        done
    } >"$folder/trace.pcapng"
    ln -s "$here/$program" "$folder/ipcap"
    while IFS= read -r line; do
        case $line in
        '    $ '*)
            command=${line#    \$ }
            : >"$room/wanted"
            ;;
        '    '*)
            echo "${line#    }" >>"$room/wanted"
            ;;
        '')
            [ -z "$command" ] || {
                (cd "$folder" && PATH=$folder:$PATH && eval "$command") \
                    >"$room/output" 2>"$room/readme.errors"
                cat "$room/readme.errors" >>"$room/output"
                if cmp -s "$room/output" "$room/wanted"; then
                    pass
                else
                    fail "$command" 'it does not print what README.md says'
                fi
            }
            command=''
            ;;
        esac
    done < <(sed -n '/^## A dozen command lines/,/^## Choosing packets/p' README.md)
}

# The keywords of IANA's registry of protocol numbers.
keywords='1:ICMP 2:IGMP 4:IPv4 6:TCP 17:UDP 41:IPv6 46:RSVP 47:GRE 50:ESP 51:AH 58:IPv6-ICMP
    59:IPv6-NoNxt 88:EIGRP 89:OSPFIGP 94:IPIP 103:PIM 108:IPComp 112:VRRP 115:L2TP 132:SCTP
    136:UDPLite 137:MPLS-in-IP'

# A packet of each of these protocols, and of some that have no keyword here. Its header has the
# checksum 20142 less the number.
protocols() {
    {
        bytes 0 20
        number 101
        for protocol in 0: 3: $keywords 255:; do
            upper=${protocol%%:*}
            number 1700000001
            number 1001
            number 20
            number 20
            printf '\105\0\0\24\0\0\100\0\100'
            for byte in "$upper" $(((20142 - upper) / 256)) $(((20142 - upper) % 256)); do
                printf "\\$(printf %03o "$byte")"
            done
            printf '\300\0\2\1\306\63\144\7'
        done
    } >"$room/input"
    line=0
    for protocol in 0: 3: $keywords 255:; do
        line=$((line + 1))
        upper=${protocol#*:}
        echo "$line 1700000001.001001 192.0.2.1 > 198.51.100.7 ${upper:-${protocol%:}}" \
            '- length 0 hops 64 fragment - checksums right none'
    done >"$room/wanted"
    closing "$line" "$line" 0 0 0 0 >"$room/wanted.errors"
    run
    judge 'protocols' $? 0
}

# Whatever byte is changed, the exit code is a documented one, so no signal ended the program; unless
# it is 2, there is a closing line.
changed_captures() {
    local value=17 file changed place byte code said
    for ((file = 0; file < files; file++)); do
        changed=$capture
        for _ in 1 2; do
            value=$(((value * 1103515245 + 12345) % 2147483648))
            place=$((value / 65536 % size))
            printf -v byte '\\%03o' $((value / 256 % 256))
            changed=${changed:0:4 * place}$byte${changed:4 * place + 4}
        done
        printf "$changed" >"$room/input"
        run
        code=$?
        mapfile -t said <"$room/errors"
        if [ "$code" -gt 2 ]; then
            fail "changed capture $file" "it ended with $code"
        elif [ "$code" -eq 2 ] && [[ ${said[0]-} != 'error: '* ]]; then
            fail "changed capture $file" 'it says no error'
        elif [ "$code" -ne 2 ] && [[ ${said[*]: -1} != *' packets: '* ]]; then
            fail "changed capture $file" 'it has no closing line'
        else
            pass
        fi
    done
}

failing_ends() {
    : >"$room/wanted"
    : >"$room/output"
    cp stdin "$room/input"
    echo 'error: a read failed: Bad file descriptor (os error 9)' >"$room/wanted.errors"
    "$program" <&- >"$room/output" 2>"$room/errors"
    judge 'standard input closed' $? 3
    echo 'error: a read failed: Is a directory (os error 21)' >"$room/wanted.errors"
    "$program" <. >"$room/output" 2>"$room/errors"
    judge 'a folder as standard input' $? 3
    for words in '' '--quiet' '--count' '-w -' 'tcp'; do
        echo 'error: a write failed: No space left on device (os error 28)' >"$room/wanted.errors"
        "$program" $words <"$room/input" >/dev/full 2>"$room/errors"
        judge "standard output full, with '$words'" $? 3
        echo 'error: a write failed: Bad file descriptor (os error 9)' >"$room/wanted.errors"
        "$program" $words <"$room/input" >&- 2>"$room/errors"
        judge "standard output closed, with '$words'" $? 3
        mkfifo "$room/pipe"
        exec 3<>"$room/pipe" 4>"$room/pipe" 3<&-
        : >"$room/wanted.errors"
        "$program" $words <"$room/input" >&4 2>"$room/errors"
        judge "a pipe that nobody reads, with '$words'" $? 3
        exec 4>&-
        rm "$room/pipe"
    done
    cp "$room/many" "$room/input"
    echo 'error: a write failed: No space left on device (os error 28)' >"$room/wanted.errors"
    for words in '' '-w -' 'tcp'; do
        "$program" $words <"$room/input" >/dev/full 2>"$room/errors"
        judge "standard output full, with many records and '$words'" $? 3
    done
    failing_errors
}

# Standard error that is closed or full changes no exit code, and nothing on standard output.
failing_errors() {
    : >"$room/wanted.errors"
    : >"$room/errors"
    bytes 0 430 >"$room/cut"
    cp stdin "$room/input"
    cp stdout "$room/wanted"
    "$program" <"$room/input" >"$room/output" 2>&-
    judge 'standard error closed' $? 0
    "$program" <"$room/input" >"$room/output" 2>/dev/full
    judge 'standard error full' $? 0
    first_lines 5 >"$room/wanted"
    "$program" <"$room/cut" >"$room/output" 2>&-
    judge 'standard error closed, with a capture that is cut off' $? 1
    "$program" <"$room/cut" >"$room/output" 2>/dev/full
    judge 'standard error full, with a capture that is cut off' $? 1
    closing_of 5 >"$room/wanted"
    "$program" --quiet <"$room/cut" >"$room/output" 2>/dev/full
    judge 'standard error full, with a capture that is cut off, quiet' $? 1
    kept '1 2 3 4 5' >"$room/wanted"
    "$program" -w - <"$room/cut" >"$room/output" 2>&-
    judge 'standard error closed, with packets that are written' $? 1
    # (what is written to standard error must not get into the file, whose number could be 2)
    "$program" -w "$room/output" <"$room/cut" 2>&-
    judge 'standard error closed, with packets of a cut capture that are written to a file' $? 1
    cp "$room/input" "$room/wanted"
    "$program" -w "$room/output" <"$room/input" 2>&-
    judge 'standard error closed, with packets that are written to a file' $? 0
    : >"$room/output"
    "$program" -w "$room/output" "$room/input" <&- 2>&-
    judge 'standard input and error closed, with packets that are written to a file' $? 0
    : >"$room/wanted"
    "$program" -w "$room/output" <&- >&- 2>&-
    judge 'standard streams closed, with a file for packets' $? 3
    echo 'error: /dev/stdout: No such file or directory (os error 2)' >"$room/wanted.errors"
    "$program" -w /dev/stdout <"$room/input" >&- 2>"$room/errors"
    judge 'standard output closed, with packets that are written to it by name' $? 2
    : >"$room/wanted.errors"
    : >"$room/errors"
    "$program" </dev/null >"$room/output" 2>/dev/full
    judge 'standard error full, with no capture' $? 2
    "$program" tcp prot <"$room/input" >"$room/output" 2>&-
    judge 'standard error closed, with no expression' $? 2
    "$program" <"$room/input" >/dev/full 2>&-
    judge 'standard error closed, and standard output full' $? 3
}

# failing_read LENGTH NUMBERS ARGUMENT..: the first LENGTH bytes of `stdin` come from a pipe that is
# still open for writing, and have the lines with these numbers. The next read fails: it does not
# wait for more, since `dd` leaves the pipe `nonblock`.
failing_read() {
    mkfifo "$room/pipe"
    exec 3<>"$room/pipe"
    dd count=0 iflag=nonblock <&3 2>/dev/null || { echo 'dd has no iflag=nonblock' && exit 1; }
    bytes 0 "$1" >&3
    "$program" "${@:3}" <&3 >"$room/output" 2>"$room/errors"
    code=$?
    exec 3<&-
    rm "$room/pipe"
    numbered $2 >"$room/wanted"
    judge "a read that fails after $1 bytes, with '${*:3}'" "$code" 3
}

# enough LENGTH ARGUMENT..: the same, where no more is read, since enough are listed. The
# files `wanted` and `wanted.errors` say what is written.
enough() {
    mkfifo "$room/pipe"
    exec 3<>"$room/pipe"
    dd count=0 iflag=nonblock <&3 2>/dev/null || { echo 'dd has no iflag=nonblock' && exit 1; }
    bytes 0 "$1" >&3
    "$program" "${@:2}" <&3 >"$room/output" 2>"$room/errors"
    code=$?
    exec 3<&-
    rm "$room/pipe"
    judge "enough after $1 bytes, with '${*:2}'" "$code" 0
}

# The lines of the records before a read that fails are written all the same.
failing_reads() {
    echo 'error: a read failed: Resource temporarily unavailable (os error 11)' >"$room/wanted.errors"
    failing_read 0 ''
    failing_read 20 ''
    failing_read 24 ''
    failing_read 400 '1 2 3 4'
    failing_read 447 '1 2 3 4 5 6'
    failing_read 447 '' --quiet
    failing_read 400 '1 4' udp or icmp
    failing_read 447 '1 4 5 6' not vlan
    failing_read 447 '' --quiet not vlan
    failing_read 447 '' --count
    failing_read 447 '1 2 3 4 5 6' -c 7
    failing_read 447 '1 4' -c 3 udp or icmp
    kept '1 2 3 4' >"$room/kept"
    failing_read 400 '' -w "$room/file"
    cmp -s "$room/kept" "$room/file" || fail 'packets before a read that fails' 'they are not written'
    first_lines 4 >"$room/wanted"
    closing_of 4 >"$room/wanted.errors"
    enough 400 -c 4
    first_lines 2 >"$room/wanted"
    closing_of 2 >"$room/wanted.errors"
    enough 447 -c 2
    kept '1 2' >"$room/wanted"
    enough 176 -c 2 -w -
    numbered 1 4 >"$room/wanted"
    closing '2 of 4' 2 0 0 0 1 >"$room/wanted.errors"
    enough 342 -c 2 udp or icmp
}

# waiting_read ARGUMENT..: the first 400 bytes of `stdin` come from a pipe that stays open, so the
# next read waits. By then the file `wanted` is written, for which this waits ten seconds at most.
waiting_read() {
    mkfifo "$room/pipe"
    exec 3<>"$room/pipe"
    bytes 0 400 >&3
    "$program" "$@" <&3 >"$room/output" 2>"$room/errors" &
    for ((tries = 0; tries < 100; tries++)); do
        cmp -s "$room/output" "$room/wanted" && break
        sleep 0.1
    done
    kill -KILL $!
    wait $! 2>/dev/null
    exec 3<&-
    rm "$room/pipe"
    judge "a read that waits, with '$*'" 0 0
}

# What belongs to the records that have come is written before a read waits for the next one.
waiting_reads() {
    : >"$room/wanted.errors"
    first_lines 4 >"$room/wanted"
    waiting_read
    numbered 1 4 >"$room/wanted"
    waiting_read udp or icmp
    kept '1 2 3 4' >"$room/wanted"
    waiting_read -w -
}

[ $# -gt 0 ] || set -- ipcap ipcap.by-rattle
build_many
for build; do
    program=out/$build
    if ! [ -x "$program" ]; then
        fail 'the build' 'it is missing: rt ci makes both, and rt run makes ipcap alone'
        continue
    fi
    whole_capture
    many_records
    arguments
    help_and_version
    files_read
    files_written
    counts
    expressions
    many_chosen
    no_expressions
    cut_captures
    formats
    no_captures
    long_records
    longest_records
    pcapng_captures
    interfaces
    refused_blocks
    long_blocks
    cut_pcapng
    dates
    reassembled
    forged_fragments
    readme
    link_types
    cut_packets
    lengths
    cut_extensions
    jumbograms
    nested_fragment
    protocols
    changed_captures
    failing_ends
    failing_reads
    waiting_reads
done
echo "$passed passed, $failed failed"
[ "$failed" -eq 0 ]
