# What the demos share: the test volume, the program, and calls over UDP. It is sourced, by bash.
# A demo talks to 127.0.0.1 alone, ends every wait by itself, and stops only what it started.

port=2049
repository=$(cd "$(dirname "${BASH_SOURCE[0]}")/.." && pwd)
program=${NFSD:-$repository/crates/nfsd/out/nfsd} # another build, where NFSD names one
tool=${V7TOOL:-$repository/crates/v7tool/out/v7tool}
control=${PRESTOCTL:-$repository/crates/prestoctl/out/prestoctl}
folder=$(mktemp -d)
disk=$folder/disk.img
board=$folder/board.img
volume=$disk # what the program is told to serve; DISK:BOARD where a board is used
turns=40
running=

# Ends what still runs, and leaves no file behind.
clean_up() {
    if [ -n "$running" ]; then
        kill -KILL "$running" 2>/dev/null
        wait "$running" 2>/dev/null
    fi
    rm -rf "$folder"
}
trap clean_up EXIT
trap 'exit 1' INT TERM

say() {
    printf '%s\n' "$*"
}

# fail WHY: the verdict, and the end.
fail() {
    say "verdict: FAILED: $*"
    exit 1
}

# The numbers of a volume have their low byte first. Each of these prints hexadecimal digits.
le16() {
    printf '%02x%02x' $(($1 & 255)) $(($1 >> 8 & 255))
}

le24() {
    printf '%02x%02x%02x' $(($1 & 255)) $(($1 >> 8 & 255)) $(($1 >> 16 & 255))
}

le32() {
    le16 $(($1 & 65535))
    le16 $(($1 >> 16 & 65535))
}

# text_hex TEXT: the digits of its characters.
text_hex() {
    printf '%s' "$1" | od -An -v -tx1 | tr -d ' \n'
}

# bytes HEX..: the bytes that the digits stand for; what isn't a digit is passed over.
bytes() {
    local digits="$*" escaped=
    digits=${digits//[^0-9a-f]/}
    while [ -n "$digits" ]; do
        escaped+="\\x${digits:0:2}"
        digits=${digits:2}
    done
    printf "$escaped"
}

# hex_at FILE OFFSET COUNT: the digits of these bytes.
hex_at() {
    od -An -v -tx1 -j "$2" -N "$3" "$1" | tr -d ' \n'
}

# poke_in FILE OFFSET HEX: puts bytes into a file.
poke_in() {
    bytes "$3" | dd of="$1" bs=4096 seek="$2" oflag=seek_bytes conv=notrunc status=none
}

# poke OFFSET HEX: puts bytes into the disk.
poke() {
    poke_in "$disk" "$1" "$2"
}

# inode NUMBER MODE NLINK OWNER SIZE BLOCK [BLOCK]: one with generation 1 and the times 1000.
inode() {
    local place=$((2 * 512 + 64 * ($1 - 1)))
    poke $place "$(le16 $2)$(le16 $3)$(le16 $4)$(le16 $4)$(le32 $5)$(le24 $6)$(le24 ${7:-0})"
    poke $((place + 48)) "$(le32 1)$(le32 1000)$(le32 1000)$(le32 1000)"
}

# run_tool WORD..: runs v7tool, shows what it says, and leaves that in `said`.
run_tool() {
    local status
    said=$("$tool" "$@" 2>&1)
    status=$?
    say "v7tool ${*//"$folder/"/}: $said"
    [ $status -eq 0 ] || fail "its status is $status"
}

# mkfs [BUFFERS]: a volume of 64 sectors with the root alone, and a board of so many buffers if there is one.
mkfs() {
    buffers=${1:-0}
    run_tool mkfs "$volume" 64 16 "$buffers" VOLA00 1000
}

# The file `f` in the root, number 3, of 1,024 bytes `a`. It is put there by hand, so that its owner, its blocks and its times are these.
add_file() {
    inode 2 $((8#040755)) 2 0 48 4
    inode 3 $((8#100644)) 1 100 1024 5 6
    poke $((4 * 512 + 32)) "$(le16 3)$(text_hex f)"
    file_of_letters | dd of="$disk" bs=4096 seek=$((5 * 512)) oflag=seek_bytes conv=notrunc status=none
}

# checks WORD: v7tool says so of the volume, `clean` or `mendable`, with that file in it.
checks() {
    run_tool check "$volume"
    [ "$said" = "$1 files 1 directories 1 links 0 used 3 free 57" ] || fail "it is not $1 with one file"
}

# entries: how many sectors the board holds, by its words.
entries() {
    od -An -v -tx8 -w8 -j 16 -N $((8 * (buffers - 1))) "$board" | grep -cv '^ *0*$'
}

# The file's bytes as they are at first.
file_of_letters() {
    head -c 1024 /dev/zero | tr '\0' a
}

# build FILE: the program of that crate, proved and built unless it is there.
build() {
    local crate
    if [ -x "$1" ]; then
        return
    fi
    crate=$(basename "$1")
    say "building $crate: rt run in crates/$crate, which proves it first"
    (cd "$repository/crates/$crate" && rt run >"$folder/build.log" 2>&1)
    if [ ! -x "$1" ]; then
        tail -n 5 "$folder/build.log"
        fail "$crate could not be built"
    fi
}

# Finds the programs, or proves and builds them.
find_programs() {
    build "$program"
    build "$tool"
}

# call DATAGRAM REPLY SECONDS: sends the file's bytes as one datagram, and keeps the one that comes back.
call() {
    exec 3<>/dev/udp/127.0.0.1/$port || return 1
    dd if="$1" bs=9216 count=1 status=none >&3 2>/dev/null
    timeout "$3" dd bs=9216 count=1 status=none <&3 >"$2" 2>/dev/null
    exec 3>&-
    [ -s "$2" ]
}

# call_stale: a WRITE whose handle names a volume that is not there, which changes nothing; keeps what comes back.
call_stale() {
    bytes 00000009 00000000 00000002 000186a3 00000002 00000008 \
        00000001 00000018 00000000 00000001 63000000 00000064 00000064 00000000 \
        00000000 00000000 \
        56374e32 00000001 00000003 00000001 00000000 00000000 00000000 00000000 \
        00000000 00000000 00000000 00000000 >"$folder/stale"
    call "$folder/stale" "$folder/stale.reply" 1
}

# Whether the server answers that call, by STALE.
answers() {
    call_stale && [ "$(hex_at "$folder/stale.reply" 0 400)" = 00000009000000010000000000000000000000000000000000000046 ]
}

# start LINES: runs the program on the disk, its lines into that file, and waits until it answers.
start() {
    local turn
    if call_stale; then
        fail "port $port is taken: another server answers there"
    fi
    "$program" "$volume" --workers 1 --turns $turns >"$1" 2>&1 &
    running=$!
    for ((turn = 0; turn < 50; turn++)); do
        if ! kill -0 "$running" 2>/dev/null; then
            wait "$running"
            local status=$?
            running=
            fail "the program ended with status $status: $(cat "$1")"
        fi
        if answers; then
            say "started: nfsd ${volume//"$folder/"/} --workers 1 --turns $turns, at 127.0.0.1 port $port"
            return
        fi
        sleep 0.1
    done
    fail "the program did not answer in time"
}

# finish LINES: waits until the program has spent its turns, and shows what it said.
finish() {
    local turn status
    for ((turn = 0; turn < 300; turn++)); do
        if ! kill -0 "$running" 2>/dev/null; then
            break
        fi
        sleep 0.1
    done
    if kill -0 "$running" 2>/dev/null; then
        fail "the program did not end by its turns"
    fi
    wait "$running"
    status=$?
    running=
    say "the program ended with status $status and said:"
    while IFS= read -r line; do
        say "    $line"
    done <"$1"
    if [ $status -ne 72 ]; then
        fail "its status is $status, and not 72 for turns that are spent"
    fi
}

# control STATUS LINE WORD..: runs prestoctl with these words; it says that line and ends with that status.
control() {
    local wanted=$1 line=$2 said status
    shift 2
    said=$("$control" 127.0.0.1:$port "$@" 2>&1)
    status=$?
    say "prestoctl 127.0.0.1:$port $*: $said (status $status)"
    [ "$said" = "$line" ] || fail "it did not say '$line'"
    [ $status -eq "$wanted" ] || fail "its status is not $wanted"
}

# Waits until the program has ended as it was told, and shows what it said.
finish_by_halt() {
    local turn status
    for ((turn = 0; turn < 50; turn++)); do
        if ! kill -0 "$running" 2>/dev/null; then
            break
        fi
        sleep 0.1
    done
    if kill -0 "$running" 2>/dev/null; then
        fail "the program did not end when it was told to halt"
    fi
    wait "$running"
    status=$?
    running=
    say "the program ended with status $status and said:"
    while IFS= read -r line; do
        say "    $line"
    done <"$1"
    [ $status -eq 0 ] || fail "its status is not 0"
}

# Kills the program, so that it can end nothing in order.
kill_program() {
    kill -KILL "$running"
    { wait "$running"; } 2>/dev/null
    say "killed, with status $?"
    running=
}

# file_call XID PROCEDURE: the words of a call on the file `f`, by its owner, up to its handle.
file_call() {
    bytes "$1" 00000000 00000002 000186a3 00000002 "$2" \
        00000001 00000018 00000000 00000001 63000000 00000064 00000064 00000000 \
        00000000 00000000 \
        56374e32 00000000 00000003 00000001 00000000 00000000 00000000 00000000
}

# write_call XID OFFSET HEX: WRITE of two bytes to the file `f`, by its owner, as one datagram.
write_call() {
    file_call "$1" 00000008
    bytes 00000000 "$(printf '%08x' "$2")" 00000000 00000002 "${3}0000"
}

# show HEX: words of four bytes, eight in a line.
show() {
    local digits=$1
    while [ -n "$digits" ]; do
        local line=${digits:0:64} words=
        while [ -n "$line" ]; do
            words+=" ${line:0:8}"
            line=${line:8}
        done
        say "   $words"
        digits=${digits:64}
    done
}

# ask WHAT: sends the call in `$folder/call`, shows it and its reply, and leaves the reply's digits in `reply`.
ask() {
    say "sent $(stat -c %s "$folder/call") bytes: $1"
    show "$(hex_at "$folder/call" 0 400)"
    call "$folder/call" "$folder/reply" 5 || fail "no reply came"
    reply=$(hex_at "$folder/reply" 0 400)
    say "reply of $(stat -c %s "$folder/reply") bytes:"
    show "$reply"
}

# answers_with XID SECOND HEX: the reply is that of the file's attributes, changed in that second, and then these words.
answers_with() {
    local wanted="${1}0000000100000000000000000000000000000000"
    wanted+="00000000"
    wanted+="00000001000081a400000001000000640000006400000400"
    wanted+="0000020000000000000000020000000000000003"
    wanted+="000003e800000000${2}00000000${2}00000000${3}"
    if [ "$reply" != "$wanted" ]; then
        say "wanted:"
        show "$wanted"
        fail "the reply is another"
    fi
}

# send_write XID OFFSET HEX: sends the WRITE, and checks every word of its reply.
# The two seconds in it, of the last change of bytes and of attributes, are the clock's, which the server asks before it waits for a call; `second`
# keeps them.
send_write() {
    local before after
    write_call "$1" "$2" "$3" >"$folder/call"
    before=$(date +%s)
    ask "WRITE of $3 at offset $2 of file 3"
    after=$(date +%s)
    second=${reply:160:8}
    answers_with "$1" "$second" ""
    if [ $((16#$second)) -lt $((before - 1)) ] || [ $((16#$second)) -gt "$after" ]; then
        fail "the second in the reply is not the clock's"
    fi
}

# write_bytes XID OFFSET HEX: sends the WRITE; its second is on the disk when the reply has come.
write_bytes() {
    send_write "$@"
    stored_second $((16#$second))
}

# get_attributes XID: sends a GETATTR, whose reply has the seconds of the last WRITE.
get_attributes() {
    file_call "$1" 00000001 >"$folder/call"
    ask "GETATTR of file 3"
    answers_with "$1" "$second" ""
}

# read_bytes XID OFFSET TEXT: sends a READ of as many bytes as the text of four has, and they come back.
read_bytes() {
    {
        file_call "$1" 00000006
        bytes "$(printf '%08x' "$2")" 00000004 00000000
    } >"$folder/call"
    ask "READ of 4 bytes at offset $2 of file 3"
    answers_with "$1" "$second" "00000004$(text_hex "$3")"
}

# stored_second SECOND: the inode on the disk has it, as its last two times.
stored_second() {
    local times
    times=$(hex_at "$disk" $((2 * 512 + 2 * 64 + 52)) 12)
    if [ "$times" != "$(le32 1000)$(le32 "$1")$(le32 "$1")" ]; then
        fail "the inode on the disk has other times: $times"
    fi
}

# holds OFFSET TEXT ..: the file's bytes on the disk are the letters, but for these texts at these offsets.
holds() {
    local place
    file_of_letters >"$folder/wanted"
    while [ $# -gt 0 ]; do
        printf '%s' "$2" | dd of="$folder/wanted" bs=4096 seek="$1" oflag=seek_bytes conv=notrunc status=none
        place=$((5 * 512 + $1 - 1))
        say "bytes $place to $((place + 3)) of the disk, from offset $(($1 - 1)) of the file: $(dd if="$disk" bs=4 skip=$place iflag=skip_bytes count=1 status=none)"
        shift 2
    done
    dd if="$disk" bs=1024 skip=$((5 * 512)) iflag=skip_bytes count=1 status=none | cmp -s - "$folder/wanted"
}

# ---- calls by user 0

# head_of XID PROGRAM VERSION PROCEDURE: the words of a call by user 0, up to its arguments.
head_of() {
    bytes "$1" 00000000 00000002 "$2" "$3" "$4" \
        00000001 00000018 00000000 00000001 63000000 00000000 00000000 00000000 \
        00000000 00000000
}

# text TEXT: its length and its bytes, padded to a whole number of words.
text() {
    local digits
    digits=$(text_hex "$1")
    while [ $((${#digits} % 8)) -ne 0 ]; do
        digits+=00
    done
    bytes "$(printf '%08x' ${#1})" "$digits"
}

# handle_of NUMBER GENERATION: the words of its handle.
handle_of() {
    printf '56374e32 00000000 %08x %08x 00000000 00000000 00000000 00000000' "$1" "$2"
}

# The handle of the root; attributes that are not set.
root_handle=$(handle_of 2 1)
unset="ffffffff ffffffff ffffffff ffffffff ffffffff ffffffff ffffffff ffffffff"

# is_answered XID HEX..: the reply is an accepted one with these words.
is_answered() {
    local wanted="${1}0000000100000000000000000000000000000000"
    shift
    wanted+=$(printf '%s' "$@" | tr -d ' ')
    if [ "$reply" != "$wanted" ]; then
        say "wanted:"
        show "$wanted"
        fail "the reply is another"
    fi
}

# second_at BYTE: the second in the reply, which is the clock's, as `second`.
second_at() {
    local now
    now=$(date +%s)
    second=${reply:$((2 * $1)):8}
    if [ $((16#$second)) -gt "$now" ] || [ $((16#$second)) -lt $((now - 10)) ]; then
        fail "the second in the reply is not the clock's"
    fi
}
