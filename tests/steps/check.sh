# The part of step 35 on the word check, sourced there behind moves.sh: its files are in the directory of that step. What check says of images with one octet
# spoilt stands in moves.sh, where the moves say the same.
page=../../../docs/IMAGE.md

# The examples of docs/IMAGE.md: octets, with words behind three spaces or none, and under them what check prints. Every number has one.
page_examples() {
    local line words word number octets="" numbers=""
    while IFS= read -r line; do
        [[ $line == "    "* ]] || continue
        line=${line#    }
        words=${line%%   *}
        if [[ $words =~ ^[0-9A-F]{2}(\*[0-9]+)?(\ [0-9A-F]{2}(\*[0-9]+)?)*$ ]]; then
            while read -r -d ' ' word; do
                octets+=" ${word%\**}"
                [[ $word != *\** ]] || octets+=$(times $((${word#*\*} - 1)) " ${word%\**}")
            done <<< "$words "
        else
            octets "$octets" > example
            tries "$([[ $line == acceptable* ]]; echo $?)" "$line\n" "" check example
            numbers+=" ${line%% *}"
            octets=""
        fi
    done < "$page"
    for number in acceptable: 71 72 73 74 75 76 77; do
        [[ " $numbers " == *" $number "* ]] || { echo "docs/IMAGE.md: no example of $number"; exit 1; }
    done
}
# The tables of the page: fields without a gap, as many octets in all as the heading says, and as many of each record as check wants.
page_layout() {
    awk '
        function ends() { if (wanted != sum) { print "docs/IMAGE.md: " sum " octets under " title; bad = 1 } }
        /^#/ { ends(); title = $0; sum = 0; wanted = $0 ~ /, [0-9]+ octets$/ ? $(NF - 1) : 0 }
        /^\| [0-9]+ \| [0-9]+ \| / { if ($2 != sum) { print "docs/IMAGE.md: " $0; bad = 1 } sum += $4 }
        END { ends(); exit bad }
    ' "$page"
    local name number=0 size
    for name in UUID "link key" "long term key" "identity resolving key" "blocked device" device; do
        size=$(sed -n "s/^### ${name^}s, \([0-9]*\) octets$/\1/p" "$page")
        { fixed 01 "02 81" "02 80" && names_2 "" "" && zeros "$number" && octets 01; } | image_of 02 01 > example
        finds "71 at octet $((33 + number)): length: not whole: $name 0 of controller 0 (index 1), $size octets from octet $((33 + number)) on, 0 there" example
        number=$((number + 1))
    done
}

# Images of both versions with a controller at index 2, without names: its tables, and where they are other than a dual-mode one's, its supported settings and
# its flags in both versions.
tabled() { # TABLES [SUPPORTED FLAGS-1 FLAGS-2]
    { fixed 02 "${2:-02 81}" "${3:-02 00}" && names_1 "" "" && octets "$1"; } | image_of 01 01 > tabled.1
    { fixed 02 "${2:-02 81}" "${4:-02 80}" && names_2 "" "" && octets "$1"; } | image_of 02 01 > tabled.2
}
# What check finds in both, so many octets behind the first octet of the first table.
faulty() { # NUMBER PLACE WORDS
    finds "$1 at octet $((290 + $2)): $3" tabled.1
    finds "$1 at octet $((32 + $2)): $3" tabled.2
}
record() { # TABLE NAME RULE OCTETS [SUPPORTED FLAGS-1 FLAGS-2]
    local shown=${4//A5/**} length=$(((${#4} + 1) / 3))
    tabled "$(times "$1" "00 ")01 $4 $(times $((5 - $1)) "00 ")" "${@:5}"
    faulty 76 $(($1 + 1)) "record: $2 0 of controller 0 (index 2): $3; $length octets: $shown"
}
repeated() { # TABLE NAME WHAT FIRST SECOND THIRD
    local shown=${6//A5/**} length=$(((${#6} + 1) / 3))
    tabled "$(times "$1" "00 ")03 $4 $5 $6 $(times $((5 - $1)) "00 ")"
    faulty 77 $(($1 + 1 + 2 * length)) "repeated record: $2 2 of controller 0 (index 2): record $7 has the same $3; $length octets: $shown"
}
# A record of each table that breaks each rule. The values of keys, A5 here, are not shown.
zeros_6="00 00 00 00 00 00"
address="0A 22 33 44 55 66"
static="2F 81 5A 03 E7 D4"
key="07 01 02 03 04 05 06 07 08 09 0A"
value=$(times 15 "A5 ")A5
faulty_records() {
    record 0 UUID "the UUID is zero" "$(times 16 "00 ")20"
    record 1 "link key" "the address type is not 0" "$address 01 04 $value 00"
    record 1 "link key" "the key type is above 8" "$address 00 09 $value 00"
    record 1 "link key" "the controller does not support BR/EDR" "$address 00 08 $value 10" "02 01" "02 00" "02 00"
    record 2 "long term key" "the address type is not 1 or 2" "$address 00 00 00 $key $value"
    record 2 "long term key" "the key type is above 4" "$address 01 05 00 $key $value"
    record 2 "long term key" "Master is above 1" "$address 01 04 02 $key $value"
    record 2 "long term key" "the encryption key size is not 7 to 16" "$address 01 00 00 06 ${key#* } $value"
    record 2 "long term key" "the encryption key size is not 7 to 16" "$address 01 00 00 11 ${key#* } $value"
    record 2 "long term key" "the address is not a static random one" "$address 02 00 00 $key $value"
    record 2 "long term key" "the controller does not support LE" "$static 02 00 00 $key $value" "00 81" "00 00" "00 80"
    record 3 "identity resolving key" "the address type is not 1 or 2" "$address 03 $value"
    record 3 "identity resolving key" "the address is not a static random one" "00 00 00 00 00 C0 02 $value"
    record 3 "identity resolving key" "the controller does not support LE" "$address 01 $value" "00 81" "00 00" "00 80"
    record 4 "blocked device" "the address is zero" "$zeros_6 00"
    record 4 "blocked device" "the address type is above 2" "$address 03"
    record 5 device "the address is zero" "$zeros_6 00 01"
    record 5 device "the address is zero" "$zeros_6 01 00"
    record 5 device "the address type is above 2" "$address 03 01"
    record 5 device "the action is above 2" "$address 01 03"
    record 5 device "the action of a BR/EDR device is not 1" "$address 00 00"
    # A record that repeats another and breaks a rule is told by its rule.
    tabled "00 00 00 00 00 02 $address 00 01 $address 00 02"
    faulty 76 14 "record: device 1 of controller 0 (index 2): the action of a BR/EDR device is not 1; 8 octets: $address 00 02"
}
# A record of each table that repeats another, and counts of 33.
repeats_and_counts() {
    local table=0 name
    repeated 0 UUID UUID "$(times 16 "01 ")20" "$(times 16 "02 ")20" "$(times 16 "01 ")04" 0
    repeated 1 "link key" "address and type" "$static 00 08 $value 10" "$address 00 00 $value 00" "$address 00 08 $value 10" 1
    repeated 2 "long term key" "address, type and Master" "$address 01 00 00 $key $value" "$address 01 00 01 $key $value" "$address 01 01 01 $key $value" 1
    repeated 3 "identity resolving key" "address and type" "$static 01 $value" "$static 02 $value" "$static 01 $value" 0
    repeated 4 "blocked device" "address and type" "$address 00" "$address 01" "$address 01" 1
    repeated 5 device "address and type" "$address 00 01" "$address 01 01" "$address 00 01" 0
    for name in UUID "link key" "long term key" "identity resolving key" "blocked device" device; do
        tabled "$(times "$table" "00 ")21 $(times $((5 - table)) "00 ")"
        faulty 75 "$table" "table: count of ${name}s of controller 0 (index 2): above 32; 1 octet: 21"
        table=$((table + 1))
    done
}
# One octet of the first controller's fixed part in tabled.1 or tabled.2 is another.
field() { # VERSION PLACE OCTET AT NAME RULE OCTETS
    altered "tabled.$1" "$2" "$3"
    finds "74 at octet $4: field: $5 of controller 0 (index 2): $6; 4 octets: $7" altered
}
# The fields before the tables, those that moves.sh does not spoil.
faulty_fields() {
    local version
    tabled "$zeros_6" "00 01"
    for version in 1 2; do
        field "$version" 19 01 16 "supported settings" "neither BR/EDR (bit 7) nor LE (bit 9)" "00 00 00 01"
        field "$version" 16 80 16 "supported settings" "a bit above 15 is set" "80 00 00 01"
        field "$version" 17 01 16 "supported settings" "a bit above 15 is set" "00 01 00 01"
        altered "tabled.$version" 5 05
        finds "73 at octet 5: controllers: count of controllers: above 4; 1 octet: 05" altered
    done
    tabled "$zeros_6" "00 81" "00 00" "00 80"
    for version in 1 2; do
        altered "tabled.$version" 29 C6
        finds "74 at octet 24: field: static address of controller 0 (index 2): not zero, and LE is not supported; 6 octets: 00 00 00 00 00 C6" altered
    done
    field 1 22 02 20 flags "bit 9 (LE) is set, and LE is not supported" "00 00 02 00"
    field 2 22 02 20 flags "bit 9 (LE) is set, and LE is not supported" "00 00 02 80"
    tabled "$zeros_6" "02 01" "02 00" "02 00"
    field 1 22 00 20 flags "bit 9 (LE) is clear, and BR/EDR is not supported" "00 00 00 00"
    field 2 22 00 20 flags "neither bit 7 (BR/EDR) nor bit 9 (LE) is set" "00 00 00 00"
    tabled "$zeros_6"
    for version in 1 2; do
        altered "tabled.$version" 29 C0
        finds "74 at octet 24: field: static address of controller 0 (index 2): neither zero nor a static random address; 6 octets: 00 00 00 00 00 C0" altered
        altered "tabled.$version" 7 "$zeros_6"
        cp altered "tabled.$version"
        field "$version" 19 81 16 "supported settings" "BR/EDR (bit 7) with a public address of zero" "00 00 02 81"
    done
}

# Names of version 2 that break their rule: the octets behind the first zero, or behind the length of one that is too long, are not shown. Where the length is
# spoilt the tables stand there, here with a link key, then with a long term key that has no zero, both of the Value A0 to AF.
no_value() {
    if grep "A[0-9A-F] A[0-9A-F]" got.out; then
        echo "octets of a key are shown"
        exit 1
    fi
}
spoilt_names() {
    local name="74 at octet 30: field: name of controller 0 (index 0):" short="74 at octet 37: field: short name of controller 0 (index 0):"
    local value="A0 A1 A2 A3 A4 A5 A6 A7 A8 A9 AA AB AC AD AE AF"
    { fixed 00 "02 81" "02 80" && names_2 Plough "" && octets "00 01 $address 00 04 $value 00 00 00 00 00"; } | image_of 02 01 > keyed
    tries 0 "acceptable: version 2, 1 controller, 69 octets\n" "" check keyed
    altered keyed 30 26
    finds "$name a zero among its octets; 39 octets: 26 50 6C 6F 75 67 68 00 ..." altered
    no_value
    { fixed 00 "02 81" "02 80" && names_2 Plough P && octets "00 00 01 $address 01 01 01 $key $value 00 00 00"; } | image_of 02 01 > keyed
    tries 0 "acceptable: version 2, 1 controller, 81 octets\n" "" check keyed
    altered keyed 30 32
    finds "$name a zero among its octets; 51 octets: 32 50 6C 6F 75 67 68 01 50 00 ..." altered
    no_value
    altered keyed 37 0F
    finds "$short longer than 10 octets; 16 octets: 0F ..." altered
    altered keyed 37 0A
    finds "$short a zero among its octets; 11 octets: 0A 50 00 ..." altered
    # A zero at the end, one behind 64 octets, and one too many.
    altered two.2 40 00
    finds "$name a zero among its octets; 11 octets: 0A 54 68 65 20 70 6C 6F 75 67 00" altered
    altered long.2 94 00
    finds "${name/index 0/index 3} a zero among its octets; 249 octets: F8$(times 63 " 4E") ..." altered
    with_2 03 "00 81" "00 92" "${longest}N" "" | image_of 02 01 > altered
    finds "${name/index 0/index 3} longer than 248 octets; 250 octets: F9 ..." altered
}

# An image of two controllers, cut at every octet, its length field set right.
cuts() {
    local length whole
    whole=$(wc -c < two.2)
    for ((length = 5; length < whole; length++)); do
        { octets "$(printf '00 00 00 %02X' "$length")" && head -c "$length" two.2 | tail -c +5; } > cut
        $tool check cut > got.out && exit 1
        grep -q "^71 at octet $length: length: not whole: .*, [0-9]* octets\? \(or more \)\?from octet [0-9]* on, [0-9]* there$" got.out || {
            echo "cut to $length octets: $(cat got.out)"
            exit 1
        }
        count=$((count + 1))
    done
}

# Files of all kinds, and the standard input.
files_to_check() {
    tries 0 "acceptable: version 1, 2 controllers, 586 octets\n" "" check two.1
    tries 0 "acceptable: version 2, 2 controllers, 86 octets\n" "" check ./two.2
    tries 0 "acceptable: version 2, 4 controllers, 16014 octets\n" "" check largest.2
    cp long.1 input
    tries 0 "acceptable: version 1, 1 controller, 296 octets\n" "" check -
    : > input
    finds "$no_octets" -
    finds "$no_octets" empty
    finds "$no_octets" /dev/null
    finds "$noise_fault" noise.image
    wrong "IMAGE is empty, and not the name of a file" check ""
    wrong "missing: No such file or directory" check missing
    wrong "directory: Is a directory" check directory
    wrong "/dev/zero: more than 64 MiB, too long to be read" check /dev/zero
    tries 1 "$(says 0 "$state" "00 00 00 00")\n" "hub: idle.state: as long as a state, which is no image; hub_save makes an image of a state\n" check idle.state
    # A file of a mebibyte, as it is and with a head that says so.
    zeros 1048576 > big
    finds "72 at octet 4: version: 0, not 1 or 2; 1 octet: 00" big
    altered big 4 02
    finds "$(says 0 1048576 "00 00 00 00")" altered
    altered big 0 "00 10 00 00 02 00"
    finds "71 at octet 6: length: left over at the end, 1048570 octets" altered
    { octets 00 10 00 00 && tail -c +5 largest.1 && zeros $((1048576 - 16014)); } > big
    finds "71 at octet 16014: length: left over at the end, 1032562 octets" big
}

# A file that there is no memory for.
no_memory() {
    local code=0 said
    said=$(ulimit -v 40000 && exec ./hub check /dev/zero 2>&1) || code=$?
    [ "$code" -eq 2 ]
    [ "$said" = "hub: /dev/zero: Cannot allocate memory" ]
}

# The host says number, offset and words of an image that it does not load, and leaves the file alone.
host_refuses() {
    local code=0
    altered two.1 23 80
    cp altered kept.image
    ./host altered > got.out || code=$?
    [ "$code" -eq 1 ]
    diff got.out - << 'LINES'
Image of version 1, 586 octets: bad image, in a field of a controller
    Answer 74 at octet 20. Nothing is loaded; 'hub check' names what stands there
LINES
    cmp altered kept.image
    code=0
    ./host big > got.out || code=$?
    [ "$code" -eq 1 ]
    diff got.out <(echo "big: more than 16014 octets, so no image")
    echo "host: says what is wrong with an image"
}

# The examples of the README: the image of the host's shift as the demo leaves it, and with the octet spoilt that the demo spoils.
readme_says() { # FILE
    sed -n "\\|^    target/demo/hub check target/demo/$1\$| { n; s/^    //p; }" ../../../README.md
}
readme_examples() {
    grep -qF "printf '\x20' | dd of=\"\$out/spoilt.image\" bs=1 seek=89 " ../../../demo
    ./host shift.image > got.out
    tries 0 "$(readme_says shift.image)\n" "" check shift.image
    altered shift.image 89 20
    finds "$(readme_says spoilt.image)" altered
}
