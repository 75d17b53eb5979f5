#!/usr/bin/env bash
# the bench's tool as a user calls it: images and states, packets in every form, images checked and moved, each message and exit code; in part under valgrind
set -euo pipefail
cd "$(dirname "$0")/../.."
. tests/steps/tools.sh
export LC_ALL=C
get valgrind valgrind
need gcc valgrind sed awk diff cmp head tail dd find stat
library
out=target/tests/tools
rm -rf "$out"
mkdir -p "$out"
flags="-std=c11 -g -O1 -Wall -Wextra -Werror -Iinclude"
gcc $flags tools/hub.c target/staticlib/libhub.a -o "$out/hub"
gcc $flags -O2 -fsanitize=undefined -fno-sanitize-recover=all tools/hub.c target/staticlib/libhub.a -o "$out/hub.checked"
wrapped="-Wl,--wrap=fsync -Wl,--wrap=rename -Wl,--wrap=fchown"
gcc $flags $wrapped tools/hub.c tests/steps/35-calls.c target/staticlib/libhub.a -o "$out/hub.calls"
gcc $flags tests/steps/35-tools.c target/staticlib/libhub.a -o "$out/files"
gcc $flags -O2 -fsanitize=address,undefined -fno-sanitize-recover=all -Itools tests/steps/35-faults.c target/staticlib/libhub.a -o "$out/faults"
gcc $flags examples/host.c target/staticlib/libhub.a -o "$out/host"
example=$(sed -n '\|^    target/demo/hub why target/demo/shift.image | s///p' README.md)
example_says=$(sed -n '\|^    target/demo/hub why | { n; s/^    //p; }' README.md)
grep -qF "shift.image\" $example" demo
cd "$out"
./files
state=$(wc -c < fresh.state)

# Octets of hexadecimal digits, and as many zeros as are asked for, to the standard output.
octets() { printf "$(sed 's/[^ ][^ ]/\\x&/g; s/ //g' <<< "$*")"; }
zeros() { head -c "$1" /dev/zero; }

# Calls the tool: its exit code and both outputs have to be these, to the octet. The standard input is the file "input".
tool=./hub.checked
count=0
: > input
tries() { # CODE OUTPUT ERROR-OUTPUT ARGUMENTS
    local code=0 wanted=$1
    printf "$2" > wanted.out
    printf "$3" > wanted.err
    shift 3
    $tool "$@" < input > got.out 2> got.err || code=$?
    diff wanted.out got.out && diff wanted.err got.err && [ "$code" -eq "$wanted" ] || {
        echo "exit code $code, and $wanted is right: hub $*" | cut -c 1-300
        exit 1
    }
    count=$((count + 1))
}
# What is said behind the name of an image, and of one of version 1.
is_image="is an image: the answer is that of a hub just loaded from it, with power off, no advertising instances\nand nothing under way"
is_image_1="is an image of version 1: the answer is that of a hub just loaded from it, with power off, BR/EDR on\n"
is_image_1+="where it is supported, no advertising instances and nothing under way"
# The same where the hub is an image, and where it is a state.
image() { # CODE OUTPUT PACKET
    tries "$1" "$2\n" "hub: plough.image $is_image\n" why plough.image "${@:3}"
    tries "$1" "$2\n" "" why idle.state "${@:3}"
}
refused() { # STATUS TEXT PACKET
    image 1 "would be refused, status $1: $2" "${@:3}"
}
# What is no packet, no hub or no use at all.
wrong() { # MESSAGE ARGUMENTS
    tries 2 "" "hub: $1\n" "${@:2}"
}
# The fault that check finds.
finds() { # FAULT IMAGE
    tries 1 "$1\n" "" check "$2"
}
# Words so many times over.
times() { # COUNT WORDS
    local words
    printf -v words '%*s' "$1" ""
    printf '%s' "${words// /$2}"
}
# The fault of a length field that says another length, with its octets; that of a file without octets.
says() { # LENGTH OCTETS-THERE FIELD
    echo "71 at octet 0: length: the length field says $1, the file has $2 octets; 4 octets: $3"
}
no_octets="71 at octet 0: length: not whole: length field, 4 octets from octet 0 on, 0 there"

# Packets in every form, to be taken.
power="05 00 00 00 01 00 01"
octets $power > power.packet
spaced=(" $power " "$power"$'\n' "${power// /$'\t'}" "0x${power// / 0x}")
for packet in "$power" "${power// /}" "${power// /:}" "0x${power// /}" "0X${power// /}" "${spaced[@]}" @power.packet @./power.packet; do
    image 0 "would be taken" "$packet"
done
image 0 "would be taken" $power
image 0 "would be taken" 0500 00:00 0x0100 01
cp power.packet input
image 0 "would be taken" -
cp idle.state input
tries 0 "would be taken\n" "" why - "$power"
: > input
image 0 "would be taken" "01 00 FF FF 00 00"
image 0 "would be taken" "0100ffff0000"
image 0 "would be taken" "0100FfFf0000"

# What is refused: with no place, an octet, a record and its octet, two records.
refused 0x01 "Unknown Command: the hub has no command of this code, octet 0" 08 00 00 00 00 00
refused 0x11 "Invalid Index: no controller has this index, octet 2" 05 00 02 00 01 00 01
refused 0x11 "Invalid Index: the command is to the hub itself, and the index is not 65535, octet 2" 01 00 00 00 00 00
refused 0x0D "Invalid Parameters: the length does not fit the command or the count in it, octet 4" 05 00 00 00 00 00
refused 0x0D "Invalid Parameters: the value is not 0 or 1, octet 6" 05 00 00 00 01 00 02
refused 0x0D "Invalid Parameters: value 0 takes no timeout, octet 7" 06 00 00 00 03 00 00 1E 00
refused 0x0C "Not Supported: the controller does not support BR/EDR" 06 00 01 00 03 00 00 00 00
refused 0x0F "Not Powered: the controller is not powered" 1B 00 00 00 08 00 01 02 03 04 05 06 00 00
image 1 "$example_says" $example
tries 1 "would be refused, status 0x11: Invalid Index: no controller has this index, octet 2\n" "" why fresh.state "$power"
busy="would be refused, status 0x0A: Busy: another settings command is under way at this index\n"
tries 1 "$busy" "" why busy.state "07 00 00 00 01 00 01"
tries 1 "$busy" "" why busy.state "$power"
tries 0 "would be taken\n" "" why busy.state "09 00 00 00 01 00 01"
tries 0 "would be taken\n" "" why line.state "$power"

# BR/EDR is off where an image says so, and on, as it is supported, in one of version 1.
./hub downgrade plough.image plough.1.image
le_off="0D 00 00 00 01 00 00"
image 0 "would be taken" "$le_off"
tries 0 "would be taken\n" "hub: plough.1.image $is_image_1\n" why plough.1.image "$le_off"
tries 1 "would be refused, status 0x0B: Rejected: BR/EDR is off\n" "hub: off.image $is_image\n" why off.image "$le_off"
cp plough.1.image input
tries 0 "would be taken\n" "hub: - $is_image_1\n" why - "$power"
: > input

# Long term keys: device, LE Public, key type, Master, size 16, EDIV, Rand and Value of zeros.
key() { octets "$1" 00 00 00 00 C0 01 "$2" 00 "$3" && zeros 26; }
list() { octets 13 00 00 00 "$1" 00 "$2" 00; }
{ list 4A 02 && key 01 00 10 && key 02 04 07; } > good.packet
{ list 4A 02 && key 01 00 10 && key 02 05 10; } > type.packet
{ list 4A 02 && key 01 00 11 && key 02 05 10; } > size.packet
{ list 4A 02 && key 01 00 10 && key 01 04 10; } > twice.packet
{ list 92 04 && key 01 00 10 && key 02 00 10 && key 03 00 10 && key 02 00 10; } > later.packet
{ list 4A 03 && key 01 00 10 && key 02 00 10; } > count.packet
image 0 "would be taken" @good.packet
refused 0x0D "Invalid Parameters: the key type is above 4, record 1, octet 51" @type.packet
refused 0x0D "Invalid Parameters: the encryption key size is not 7 to 16, record 0, octet 17" @size.packet
refused 0x0D "Invalid Parameters: two keys are for one device (long term keys: and the same Master), records 0 and 1" @twice.packet
refused 0x0D "Invalid Parameters: two keys are for one device (long term keys: and the same Master), records 1 and 3" @later.packet
refused 0x0D "Invalid Parameters: the length does not fit the command or the count in it, octet 6" @count.packet
cp type.packet input
refused 0x0D "Invalid Parameters: the key type is above 4, record 1, octet 51" -
: > input
echo "why: $count calls, as expected"

# Files that are no hub or no packet, and hexadecimal that is none.
mkdir directory
: > empty
zeros 5 > five
octets 05 00 00 00 02 00 01 > short.packet
zeros 65541 > most.packet && octets FF FF | dd of=most.packet bs=1 seek=4 conv=notrunc status=none
zeros 65542 > over.packet && octets FF FF | dd of=over.packet bs=1 seek=4 conv=notrunc status=none
zeros 70000 > long
head -c "$state" ./hub > noise
head -c 16014 ./hub > noise.image
head -c $((state - 1)) idle.state > cut.state
{ cat idle.state && zeros 1; } > over.state
{ cat plough.image && zeros 1; } > over.image
not="not octets in hexadecimal; a file is one argument, @ and its name"
long_number=$(printf '05%.0s' {1..60000})
# The first octets of a program are taken for a length field, and the fifth for version 2.
noise_fault=$(says $((0x7F454C46)) 16014 "7F 45 4C 46")
no_hub() { # FILE FAULT
    wrong "$1: no state, which has $state octets, and no image that the hub takes: $2" why "$1" "$power"
}
bad_files() {
    wrong "HUB is empty, and not the name of a file" why "" "$power"
    wrong "missing: No such file or directory" why missing "$power"
    wrong "directory: Is a directory" why directory "$power"
    wrong "missing: No such file or directory" why idle.state @missing
    wrong "directory: Is a directory" why idle.state @directory
    wrong "@ stands before the name of a file" why idle.state @
    wrong "noise: $state octets, as a state has, but not well formed" why noise "$power"
    no_hub noise.image "$noise_fault"
    no_hub cut.state "$(says 0 $((state - 1)) "00 00 00 00")"
    no_hub empty "$no_octets"
    no_hub over.image "$(says 70 71 "00 00 00 46")"
    no_hub over.state "$(says 0 $((state + 1)) "00 00 00 00")"
    no_hub long "72 at octet 4: version: 0, not 1 or 2; 1 octet: 00"
    no_hub - "$no_octets"
    wrong "/dev/zero: more than 64 MiB, too long to be read" why /dev/zero "$power"
    wrong "five: 5 octets, so no packet: a header has 6" why idle.state @five
    wrong "PACKET: 5 octets, so no packet: a header has 6" why plough.image 05 00 00 00 01
    wrong "empty: 0 octets, so no packet: a header has 6" why idle.state @empty
    wrong "PACKET: 0 octets, so no packet: a header has 6" why idle.state ""
    wrong "-: 0 octets, so no packet: a header has 6" why idle.state -
    wrong "short.packet: 7 octets, so no packet: its header says 8" why idle.state @short.packet
    wrong "PACKET: 8 octets, so no packet: its header says 7" why idle.state "$power" 00
    wrong "over.packet: more than 65541 octets, so no packet" why idle.state @over.packet
    wrong "long: more than 65541 octets, so no packet" why idle.state @long
    wrong "/dev/zero: more than 65541 octets, so no packet" why idle.state @/dev/zero
    wrong "PACKET: more than 65541 octets, so no packet" why idle.state "$long_number" "$long_number"
    tries 1 "would be refused, status 0x01: Unknown Command: the hub has no command of this code, octet 0\n" "" why idle.state @most.packet
    for packet in power.packet 0 050 0x 0x0 "0x 05" 0x0x05 050x00 "05 0" "05-00" 0g g0 "05,00"; do
        wrong "$packet: $not" why idle.state "$packet"
    done
    wrong "${long_number::60}: $not" why idle.state "${long_number}g"
    wrong "@power.packet: $not" why idle.state @power.packet 00
    wrong "-: $not" why idle.state 05 -
    wrong "the standard input is the hub or the packet, not both" why - -
    wrong "the standard input is the hub or the packet, not both" why - @-
}
bad_files
if [ -w /dev/full ]; then
    code=0
    ./hub why idle.state "$power" > /dev/full 2> got.err || code=$?
    diff got.err <(echo "hub: the standard output: No space left on device")
    [ "$code" -eq 2 ]
fi

. ../../../tests/steps/moves.sh
good_moves empty two long largest
bad_moves
bad_images
files_of_all_kinds
. ../../../tests/steps/check.sh
page_examples
page_layout
faulty_records
repeats_and_counts
faulty_fields
spoilt_names
cuts
files_to_check
no_memory
host_refuses
readme_examples
./faults plough.image off.image two.1 two.2 long.1 long.2 largest.1 largest.2

# The usage text: asked for, or after wrong use.
./hub help > usage
for word in 'usage: hub why HUB PACKET' '       hub check IMAGE' '       hub upgrade IN OUT' '       hub downgrade IN OUT'; do grep -qx "$word" usage; done
grep -q 'is for its owner alone to read and write (mode 0600)' usage
usage=$(sed 's/\\/&&/g; s/%/%%/g; s/$/\\n/' usage | tr -d '\n')
for arguments in help --help -h "why --help" "why -h" "help why" "check -h" "upgrade -h" "downgrade --help" "help upgrade"; do
    tries 0 "$usage" "" $arguments
done
tries 2 "" "hub: no word\n$usage"
for arguments in wy "wy --help" WHY; do tries 2 "" "hub: no such word\n$usage" $arguments; done
for arguments in why "why idle.state" "why help" check upgrade "upgrade two.1" downgrade "downgrade two.2"; do
    tries 2 "" "hub: too few arguments\n$usage" $arguments
done
for arguments in "check two.1 two.2" "upgrade two.1 moved two.1" "downgrade two.2 moved -" "downgrade two.2 moved -h"; do
    tries 2 "" "hub: too many arguments\n$usage" $arguments
done
echo "hub: $count calls, each with its exit code and what it says"

# Under valgrind: what is wrong, a text of each form of place, the usage, an image moved, each fault of docs/IMAGE.md.
tool="valgrind --quiet --error-exitcode=9 ./hub"
count=0
bad_files
refused 0x0D "Invalid Parameters: the key type is above 4, record 1, octet 51" @type.packet
refused 0x0D "Invalid Parameters: two keys are for one device (long term keys: and the same Master), records 1 and 3" @later.packet
image 0 "would be taken" $power
tries 1 "$busy" "" why busy.state "$power"
tries 0 "$usage" "" help
good_moves largest
bad_moves
page_examples
files_to_check
echo "hub: $count calls under valgrind"
