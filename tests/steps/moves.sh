# The part of step 35 on the words upgrade and downgrade, sourced there: its files are in the directory of that step. NAME.1 and NAME.2 are one image in both
# versions, put together here, without the library.

# An image of a version and a count of controllers, whose octets come on the standard input.
image_of() { # VERSION COUNT
    cat > body
    octets "$(printf '%08X' $((6 + $(wc -c < body))) | sed 's/../& /g')" "$1" "$2"
    cat body
}
# A controller up to its names: index, supported settings, flags.
fixed() { octets "$1" 11 22 33 44 55 66 09 00 0F 00 00 "$2" 00 00 "$3" 00 00 00 00 00 00; }
# Names with zeros behind them, or whatever is given there: 249 and 11 octets.
names_1() { # NAME SHORT [OCTETS-BEHIND-THE-ZERO]
    local rest=${3:-}
    printf "$1" && printf "\0$rest" && zeros $((248 - ${#1} - ${#rest})) && printf "$2" && printf "\0$rest" && zeros $((10 - ${#2} - ${#rest}))
}
# Names with a length octet each.
names_2() { # NAME SHORT
    octets "$(printf '%02X' ${#1})" && printf "$1" && octets "$(printf '%02X' ${#2})" && printf "$2"
}
# A controller with such names and no records, in version 1 and in version 2; its flags are those of the version.
with_1() { fixed "$1" "$2" "$3" && names_1 "${@:4}" && zeros 6; }
with_2() { fixed "$1" "$2" "$3" && names_2 "${@:4}" && zeros 6; }

longest=$(printf 'N%.0s' {1..248})
: > none
image_of 01 00 < none > empty.1
image_of 02 00 < none > empty.2
{ with_1 00 "02 81" "02 00" "The plough" Plough && with_1 02 "02 01" "02 10" "" ""; } | image_of 01 02 > two.1
{ with_2 00 "02 81" "02 80" "The plough" Plough && with_2 02 "02 01" "02 10" "" ""; } | image_of 02 02 > two.2
{ with_1 00 "02 81" "02 00" "The plough" Plough old && with_1 02 "02 01" "02 10" "" "" XY; } | image_of 01 02 > dirty.1
with_1 03 "00 81" "00 12" "$longest" Ten_octets | image_of 01 01 > long.1
with_2 03 "00 81" "00 92" "$longest" Ten_octets | image_of 02 01 > long.2
{ with_2 00 "02 81" "02 80" "" "" && with_2 01 "02 81" "02 00" "" ""; } | image_of 02 02 > off.2
{ with_2 00 "02 81" "02 00" "" "" && with_2 01 "02 81" "02 80" "" "" && with_2 03 "02 81" "02 12" "" ""; } | image_of 02 03 > offs.2
for version in 1 2; do cp "largest.$version.image" "largest.$version"; done
printf kept > kept

# Nothing is left behind of what is written before it is renamed.
nothing_left() {
    [ -z "$(find . -name '.new-*')" ] || {
        echo "left behind: $(find . -name '.new-*')"
        exit 1
    }
}
# Moves an image to the file "moved", which is there before: exit code, what is said, and the file that "moved" is like in the end.
moves() { # CODE ERROR-OUTPUT WORD IN WANTED
    cp kept moved
    tries "$1" "" "$2" "$3" "$4" moved
    cmp "$5" moved
    nothing_left
}
# A move that is not done: "moved" is as it was.
refuses() { # CODE MESSAGE WORD IN
    moves "$1" "hub: $2\n" "$3" "$4" kept
}

# Images of both versions, each moved there and back, to another file, to itself, off the standard input, to a file that is not there yet.
good_moves() { # NAMES
    local name
    for name in "$@"; do
        moves 0 "" upgrade "$name.1" "$name.2"
        moves 0 "" downgrade "$name.2" "$name.1"
        cp "$name.1" same
        tries 0 "" "" upgrade same same
        cmp same "$name.2"
        tries 0 "" "" downgrade same ./same
        cmp same "$name.1"
        cp "$name.1" input
        moves 0 "" upgrade - "$name.2"
        rm moved
        tries 0 "" "" upgrade "$name.1" moved
        cmp moved "$name.2"
    done
    : > input
    moves 0 "hub: dirty.1: a name has octets behind its first zero; they are left out, as in every image of version 2\n" upgrade dirty.1 two.2
    tries 0 "" "" downgrade moved "$PWD/moved"
    cmp moved two.1
    tries 0 "" "" downgrade plough.image moved
    tries 0 "" "" upgrade moved moved
    cmp moved plough.image
    nothing_left
}

# An octet of an image made another one.
altered() { # IMAGE PLACE OCTET
    cp "$1" altered && octets "$3" | dd of=altered bs=1 seek="$2" conv=notrunc status=none
}
# What is no image of the version that is moved from, or says what version 1 cannot.
bad_moves() {
    refuses 1 "off.2: BR/EDR is off at controller 1, which version 1 cannot say; nothing is written" downgrade off.2
    refuses 1 "offs.2: BR/EDR is off at controller 0, 3, which version 1 cannot say; nothing is written" downgrade offs.2
    refuses 1 "off.image: BR/EDR is off at controller 0, which version 1 cannot say; nothing is written" downgrade off.image
    refuses 2 "two.2: of version 2 already: 72 at octet 4: version: 2, not 1; 1 octet: 02" upgrade two.2
    refuses 2 "off.2: of version 2 already: 72 at octet 4: version: 2, not 1; 1 octet: 02" upgrade off.2
    refuses 2 "dirty.1: of version 1 already: 72 at octet 4: version: 1, not 2; 1 octet: 01" downgrade dirty.1
    refuses 2 "noise.image: no image of version 1 that the hub takes: 72 at octet 4: version: 2, not 1; 1 octet: 02" upgrade noise.image
    refuses 2 "noise.image: no image of version 2 that the hub takes: $noise_fault" downgrade noise.image
    refuses 2 "idle.state: no image of version 1 that the hub takes: $(says 0 "$state" "00 00 00 00")" upgrade idle.state
    refuses 2 "/dev/zero: more than 64 MiB, too long to be read" downgrade /dev/zero
    refuses 2 "-: no image of version 1 that the hub takes: $no_octets" upgrade -
    refuses 2 "missing: No such file or directory" upgrade missing
    refuses 2 "directory: Is a directory" downgrade directory
    refuses 2 "IN is empty, and not the name of a file" upgrade ""
    wrong "OUT is empty, and not the name of a file" upgrade two.1 ""
    wrong "OUT is empty, and not the name of a file" downgrade - ""
    wrong "IN is empty, and not the name of a file" downgrade "" ""
}

# The word that moves from a version.
from() { [ "$1" = 1 ] && echo upgrade || echo downgrade; }
# The file "altered" is no image: the move says its fault, and so does check.
bad_image() { # WORD VERSION FAULT
    refuses 2 "altered: no image of version $2 that the hub takes: $3" "$1" altered
    finds "$3" altered
}
# One octet of two.1 or two.2 is another.
spoilt() { # VERSION PLACE OCTET FAULT
    altered "two.$1" "$2" "$3"
    bad_image "$(from "$1")" "$1" "$4"
}
# The same of the version octet, where a move takes one version and check both.
other_version() { # VERSION OCTET
    altered "two.$1" 4 "0$2"
    refuses 2 "altered: no image of version $1 that the hub takes: 72 at octet 4: version: $2, not $1; 1 octet: 0$2" "$(from "$1")" altered
    finds "72 at octet 4: version: $2, not 1 or 2; 1 octet: 0$2" altered
}
bad_images() {
    local place
    # Cut, or with something left over, and its length field as it was.
    for place in 5 6 30 585; do head -c "$place" two.1 > altered; bad_image upgrade 1 "$(says 586 "$place" "00 00 02 4A")"; done
    for place in 5 6 30 85; do head -c "$place" two.2 > altered; bad_image downgrade 2 "$(says 86 "$place" "00 00 00 56")"; done
    for place in 1 2; do
        head -c 0 "two.$place" > altered; bad_image "$(from "$place")" "$place" "$no_octets"
        head -c 4 "two.$place" > altered; bad_image "$(from "$place")" "$place" "71 at octet 4: length: not whole: version, 1 octet from octet 4 on, 0 there"
    done
    { cat two.1 && zeros 1; } > altered; bad_image upgrade 1 "$(says 586 587 "00 00 02 4A")"
    { cat two.2 && zeros 1; } > altered; bad_image downgrade 2 "$(says 86 87 "00 00 00 56")"
    for place in 0 3; do other_version 1 "$place"; other_version 2 "$place"; done
    spoilt 1 0 01 "$(says 16777802 586 "01 00 02 4A")"
    spoilt 2 0 01 "$(says 16777302 86 "01 00 00 56")"
    bad_fields_1
    bad_fields_2
}
# Counts that say more or less than there is, an index, flags, names that do not end, or end too soon.
bad_fields_1() {
    local flags="74 at octet 20: field: flags of controller 0 (index 0):" name="field: name of controller 0 (index 0): its last octet is not zero"
    spoilt 1 5 03 "71 at octet 586: length: not whole: index of controller 2, 1 octet from octet 586 on, 0 there"
    spoilt 1 6 04 "73 at octet 6: controllers: index of controller 0: above 3; 1 octet: 04"
    spoilt 1 22 82 "$flags a bit other than 1, 4 and 9 is set; 4 octets: 00 00 82 00"
    spoilt 1 23 80 "$flags bit 7 is set, which version 1 does not have; 4 octets: 00 00 02 80"
    spoilt 1 278 41 "74 at octet 30: $name; 249 octets: 54 68 65 20 70 6C 6F 75 67 68$(times 54 " 00") ..."
    spoilt 1 289 41 "74 at octet 279: ${name/name/short name}; 11 octets: 50 6C 6F 75 67 68 00 00 00 00 41"
}
bad_fields_2() {
    local flags="74 at octet 20: field: flags of controller 0 (index 0):" cut="71 at octet 86: length: not whole:"
    spoilt 2 5 01 "71 at octet 54: length: left over at the end, 32 octets"
    spoilt 2 6 02 "73 at octet 54: controllers: index of controller 1: not above that of the controller before, 2; 1 octet: 02"
    spoilt 2 22 82 "$flags a bit other than 1, 4, 7 and 9 is set; 4 octets: 00 00 82 80"
    spoilt 2 23 81 "$flags a bit other than 1, 4, 7 and 9 is set; 4 octets: 00 00 02 81"
    spoilt 2 30 09 "$cut short name of controller 0 (index 0), 105 octets from octet 40 on, 46 there"
    spoilt 2 30 F9 "$cut name of controller 0 (index 0), 250 octets from octet 30 on, 56 there"
    spoilt 2 31 00 "74 at octet 30: field: name of controller 0 (index 0): a zero among its octets; 11 octets: 0A 00 ..."
    with_2 00 "02 01" "02 80" "" "" | image_of 02 01 > altered
    bad_image downgrade 2 "$flags bit 7 (BR/EDR) is set, and BR/EDR is not supported; 4 octets: 00 00 02 80"
    with_2 00 "02 81" "00 00" "" "" | image_of 02 01 > altered
    bad_image downgrade 2 "$flags neither bit 7 (BR/EDR) nor bit 9 (LE) is set; 4 octets: 00 00 00 00"
}

# The file that is written: it stays of its mode, and what a link leads to, and is no device; a directory that takes none; a disk that is full.
files_of_all_kinds() {
    local code=0 said
    rm -f moved linked
    (umask 022 && tries 0 "" "" upgrade two.1 moved)
    [ "$(stat -c %a moved)" = 600 ]
    chmod 640 moved
    ln -s moved linked
    tries 0 "" "" upgrade two.1 linked
    [ -L linked ]
    cmp moved two.2
    tries 0 "" "" downgrade moved linked
    cmp moved two.1
    [ "$(stat -c %a moved)" = 640 ]
    wrong "OUT is a file, not the standard output; one of that name is ./-" upgrade two.1 -
    tries 0 "" "" upgrade two.1 ./-
    cmp ./- two.2
    wrong "directory: not a plain file" upgrade two.1 directory
    wrong "/dev/null: not a plain file" upgrade two.1 /dev/null
    [ -c /dev/null ]
    wrong "missing/moved: No such file or directory" upgrade two.1 missing/moved
    wrong "two.2/moved: Not a directory" upgrade two.1 two.2/moved
    wrong "/proc/moved: No such file or directory" upgrade two.1 /proc/moved
    # The limit of a file's size, with the signal that comes with it as it is in any shell.
    cp kept moved
    said=$(ulimit -f 0 && exec ./hub upgrade two.1 moved 2>&1) || code=$?
    [ "$code" -eq 2 ]
    [ "$said" = "hub: moved: File too large" ]
    cmp kept moved
    nothing_left
    links_to_nothing
    system_calls
    not_ours
}
# A link that leads to no file stays what it is, and no file is made.
links_to_nothing() {
    local link
    ln -s nowhere dangling
    ln -s dangling twice
    ln -s missing/moved astray
    for link in dangling twice astray; do
        wrong "$link: a link that leads to no file" upgrade two.1 "$link"
        [ -L "$link" ]
    done
    [ ! -e nowhere ]
    ln -s circle circle
    wrong "circle: Too many levels of symbolic links" upgrade two.1 circle
    nothing_left
}
# The order of the calls of the system, here and in another directory; each of them fails once. What a directory's sync brings is not taken back.
system_calls() {
    local tool=./hub.calls FAILS= place
    export FAILS
    for place in moved directory/moved "$PWD/moved"; do
        cp kept "$place"
        tries 0 "" "fsync\nrename\nfsync directory\n" upgrade two.1 "$place"
        cmp two.2 "$place"
    done
    cp kept moved
    FAILS=fsync
    tries 2 "" "fsync\nhub: moved: Input/output error\n" upgrade two.1 moved
    FAILS=rename
    tries 2 "" "fsync\nrename\nhub: moved: Input/output error\n" upgrade two.1 moved
    cmp kept moved
    FAILS="fsync directory"
    tries 0 "" "fsync\nrename\nfsync directory\n" upgrade two.1 moved
    cmp two.2 moved
    export -n FAILS
    nothing_left
}
# A file of another owner, and one that is write-protected; a directory that takes no file. Root may do all, so root also asks as somebody else.
not_ours() {
    local nobody="" tool=./hub.calls
    rm -rf shared locked
    mkdir shared locked
    cp kept shared/moved
    cp kept shared/protected
    cp kept locked/moved
    chmod 755 . hub hub.calls
    chmod 644 two.1
    chmod 777 shared
    if [ "$(id -u)" -eq 0 ]; then
        owned_by_another
        nobody="setpriv --reuid=65534 --regid=65534 --clear-groups"
    fi
    chmod 444 shared/protected
    chmod 666 locked/moved
    chmod 555 locked
    if [ -n "$nobody" ] && ! $nobody ./hub help > got.out 2>&1; then
        skip "files that a user may not write: root cannot run the tool as another user here"
    else
        tool="$nobody ./hub"
        wrong "shared/protected: Permission denied" upgrade two.1 shared/protected
        wrong "locked/moved: Permission denied" upgrade two.1 locked/moved
        [ -z "$nobody" ] || wrong "shared/moved: its owner and group cannot be kept" upgrade two.1 shared/moved
    fi
    chmod 755 locked
    for file in shared/protected locked/moved; do cmp kept "$file"; done
    [ "$(stat -c %a shared/protected)" = 444 ]
    nothing_left
}
# Root replaces files of others: owner, group and mode are kept, or the file is.
owned_by_another() {
    local owner FAILS=fchown
    chmod 640 shared/moved
    for owner in 65534:0 0:65534 1234:5678; do
        chown "$owner" shared/moved
        tries 0 "" "fchown\nfsync\nrename\nfsync directory\n" upgrade two.1 shared/moved
        cmp two.2 shared/moved
        [ "$(stat -c %u:%g:%a shared/moved)" = "$owner:640" ]
    done
    cp kept shared/moved
    export FAILS
    tries 2 "" "fchown\nhub: shared/moved: its owner and group cannot be kept\n" upgrade two.1 shared/moved
    export -n FAILS
    cmp kept shared/moved
    [ "$(stat -c %u:%g:%a shared/moved)" = "1234:5678:640" ]
    chown 0:0 shared/moved
    chmod 666 shared/moved
}
