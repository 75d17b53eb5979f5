#!/usr/bin/env bash
# a shift as a btsnoop file: its records by an independent reader, its words by BlueZ's btmon
set -euo pipefail
cd "$(dirname "$0")/../.."
. tests/steps/tools.sh
export LC_ALL=C TZ=UTC
need gcc awk diff cmp dd
library
out=target/tests/btsnoop
mkdir -p "$out"
flags="-std=c11 -g -O1 -Wall -Wextra -Werror"
gcc $flags -Iinclude examples/host.c target/staticlib/libhub.a -o "$out/host"
gcc $flags tools/btsnoop.c -o "$out/btsnoop"
gcc $flags -Iinclude tools/hub.c target/staticlib/libhub.a -o "$out/hub"
gcc $flags tests/c/read_btsnoop.c -o "$out/read"

# The shift, its times replaced by the line's number, so that every octet of the file is known.
rm -rf "$out/shift.image" "$out"/*.image.1
"$out/host" "$out/shift.image" "$out/shift.log" > "$out/host.txt"
awk '{ $1 = sprintf("%d.%06d", 1780000000 + NR, 10 * NR); print }' "$out/shift.log" > "$out/numbered.log"
"$out/btsnoop" "$out/numbered.log" "$out/shift.btsnoop"
"$out/read" "$out/shift.btsnoop" > "$out/shift.txt"
diff tests/steps/30-btsnoop.expected "$out/shift.txt"
echo "btsnoop: $(wc -l < "$out/shift.txt") records, as expected"

# The first save leaves a copy in version 1. The last one, with BR/EDR off, cannot, and removes the copy, which is another image by then.
copies() { # FILE
    grep -A 2 '^The same in version 1' "$out/$1" | grep "shift.image.1\|^The same" | sed 's|target/tests/btsnoop/||'
}
diff <(copies host.txt) - << 'LINES'
The same in version 1: done
    683 octets of version 1 are in shift.image.1
The same in version 1: cannot be said
    shift.image.1, of a save before, is removed
LINES
[ ! -e "$out/shift.image.1" ]
# A copy that cannot be written, here for a directory, is said, and the host fails.
mkdir "$out/shift.image.1"
if "$out/host" "$out/shift.image" > "$out/host.txt"; then
    echo "a copy that cannot be written, and the host says nothing"
    exit 1
fi
grep -qx "$out/shift.image.1: not a plain file" "$out/host.txt"
rmdir "$out/shift.image.1"
"$out/host" "$out/shift.image" > "$out/host.txt"
echo "host: a copy in version 1 where there is one, and no other"

# The same shift on an image of version 1, that which it left with BR/EDR of controller 1, the last, turned on: the same packets, and the file is of version 2
# in the end. Behind the low octet of the flags stand a static address, two empty names and six empty tables.
cp "$out/shift.image" "$out/on.image"
printf '\x82' | dd of="$out/on.image" bs=1 seek=$(($(wc -c < "$out/on.image") - 6 - 2 - 6 - 1)) conv=notrunc status=none
"$out/hub" downgrade "$out/on.image" "$out/old.image"
"$out/host" "$out/old.image" "$out/old.log" > "$out/old.txt"
grep -qx 'Image of version 1, [0-9]* octets: done' <(head -n 1 "$out/old.txt")
diff <(cut -d' ' -f2- "$out/shift.log") <(cut -d' ' -f2- "$out/old.log")
cmp "$out/shift.image" "$out/old.image"
echo "host: the same shift on an image of version 1"

# Logs of all kinds: what is no packet, clients that come and go, an event nobody reads; then lines that are refused.
converts() { # LOG-LINES LISTING NOTE
    printf "$1" > "$out/case.log"
    "$out/btsnoop" "$out/case.log" "$out/case.btsnoop" 2> "$out/case.err"
    "$out/read" "$out/case.btsnoop" | cut -d' ' -f2- > "$out/case.txt"
    diff <(printf "$2") "$out/case.txt"
    diff <(printf "$3") "$out/case.err"
}
refuses() { # LOG-LINES MESSAGE
    printf "$1" > "$out/case.log"
    if "$out/btsnoop" "$out/case.log" "$out/case.btsnoop" 2> "$out/case.err"; then
        echo "taken, and not refused: $1"
        exit 1
    fi
    grep -qF "$2" "$out/case.err"
}
opened="ffff open 1 format 2 version 1.10 flags 0 A\n"
converts "" "" ""
converts "1.0 A open\n1.0 A sent 0100ff\n1.0 A sent 0100ffff0100\n1.0 A sent\n" "$opened" \
    "btsnoop: 3 packets left out, 0 replies and events without a client\n"
converts "1.0 A open\n1.0 A wrote 1a0000000000\n1.0 A close\n1.0 - wrote 040000000000\n1.0 A open\n" \
    "${opened}ffff close 1\n${opened/open 1/open 2}" "btsnoop: 0 packets left out, 2 replies and events without a client\n"
converts "1.0 A open\n1.0 A sent 05000300010001\n1.0 A close\n1.0 - wrote 020003000300050003\n" \
    "${opened}0003 command 1 0x0005 1 01\nffff close 1\n" "btsnoop: 0 packets left out, 1 replies and events without a client\n"
converts "1.0 A open\n1.0 A sent 3f000000010005\n1.0 A wrote 0100000004003f00000524000000010005\n" \
    "${opened}0000 command 1 0x003f 1 05\n0000 event 1 0x0001 4 3f 00 00 05\n" "btsnoop: 0 packets left out, 1 replies and events without a client\n"
converts "1.0 A open\n1.0 A sent 0d000000010000\n1.0 A wrote 0100000007000d0000800000000600000004008000000024000000010005\n" \
    "${opened}0000 command 1 0x000d 1 00\n0000 event 1 0x0001 7 0d 00 00 80 00 00 00\n0000 event 1 0x0006 4 80 00 00 00\n0000 event 1 0x0024 1 05\n" ""
refuses "1.0 A sent 0100ffff0000\n" "line 1: this client is not open"
refuses "1.0 A open\n1.0 A open\n" "line 2: this client is open already"
refuses "1.0 - wrote 020003000300050003\n" "line 1: no client waits for this reply"
refuses "1.0 - wrote 0400000001\n" "line 1: octets that are no management packet"
refuses "1.0 - wrote 040000000100\n" "line 1: octets that are no management packet"
refuses "1.0 - wrote 04000000000\n" "line 1: not octets in hexadecimal"
refuses "1.0 A waits\n" "line 1: a word that is not known"
refuses "yesterday\n" "line 1: not a time, a client and a word"
refuses "1.0 A open" "line 1: too long, or cut short"
echo "btsnoop: logs of all kinds, as expected"

get btmon bluez
if ! command -v btmon > /dev/null; then
    skip "the shift in btmon's words: btmon (package bluez) is not here and could not be installed"
    exit 0
fi
# Many spaces stand in btmon's lines up to the width of a terminal: one is left of each run, and the time at the end is cut off.
PAGER=cat timeout 60 btmon -r "$out/shift.btsnoop" < /dev/null | tr -s ' ' | sed 's/ [0-9.]*$//' > "$out/btmon.txt"
says() {
    grep -qxF -- "$1" "$out/btmon.txt" || {
        echo "btmon does not say: $1"
        exit 1
    }
}
while read -r line; do says "$line"; done << 'WORDS'
@ MGMT Open: A version 1.10 {0x0001}
@ MGMT Open: B version 1.10 {0x0002}
@ MGMT Event: Index Added (0x0004) plen 0 {0x0001} [hci0]
@ MGMT Event: Index Added (0x0004) plen 0 {0x0002} [hci1]
@ MGMT Command: Set Powered (0x0005) plen 1 {0x0001} [hci0]
@ MGMT Command: Set Powered (0x0005) plen 1 {0x0002} [hci1]
@ MGMT Command: Set Connectable (0x0007) plen 1 {0x0002} [hci0]
@ MGMT Event: Command Status (0x0002) plen 3 {0x0002} [hci0]
@ MGMT Event: Command Status (0x0002) plen 3 {0x0002} [hci1]
@ MGMT Event: Command Complete (0x0001) plen 7 {0x0001} [hci0]
@ MGMT Event: New Settings (0x0006) plen 4 {0x0001} [hci0]
@ MGMT Event: New Settings (0x0006) plen 4 {0x0002} [hci0]
@ MGMT Command: Load Long Term Keys (0x0013) plen 74 {0x0001} [hci0]
@ MGMT Command: Set BR/EDR (0x002a) plen 1 {0x0002} [hci1]
@ MGMT Event: Device Added (0x001a) plen 8 {0x0002} [hci0]
@ MGMT Command: Remove Device (0x0034) plen 7 {0x0001} [hci0]
@ MGMT Event: Device Removed (0x001b) plen 7 {0x0002} [hci0]
@ MGMT Command: Add Advertising (0x003e) plen 24 {0x0001} [hci0]
@ MGMT Event: Advertising Added (0x0023) plen 1 {0x0002} [hci0]
@ MGMT Event: Advertising Removed (0x0024) plen 1 {0x0001} [hci0]
@ MGMT Event: Advertising Removed (0x0024) plen 1 {0x0002} [hci0]
@ MGMT Command: Remove Advertising (0x003f) plen 1 {0x0001} [hci0]
@ MGMT Event: Index Removed (0x0005) plen 0 {0x0001} [hci1]
@ MGMT Command: Read Controller Index List (0x0003) plen 0 {0x0002}
@ MGMT Close: B {0x0002}
WORDS
for words in "Busy (0x0a)" "Failed (0x03)" "Invalid Parameters (0x0d)" "Invalid Index (0x11)" "Success (0x00)"; do says " Status: $words"; done
# Nothing that btmon could not read.
none "$out/btmon.txt" -iE '^@ .*: unknown|malformed|invalid packet size|too short packet'
diff <(grep -cE '^[^ ]+ [^ ]+ (command|event) ' "$out/shift.txt") <(grep -c '^@ MGMT Command\|^@ MGMT Event' "$out/btmon.txt")
echo "btmon: every packet in words"
