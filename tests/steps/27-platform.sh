#!/usr/bin/env bash
# what the library needs and takes: symbols, sections, stack and time, held to the README; the lent buffers; a program with no C library
set -euo pipefail
cd "$(dirname "$0")/../.."
. tests/steps/tools.sh
export LC_ALL=C
get valgrind valgrind
need gcc g++ nm objdump readelf awk valgrind
library
lib=target/staticlib/libhub.a
out=target/tests/c
mkdir -p "$out"
flags="-Wall -Wextra -Werror -Iinclude"

# Ends the step with what is not so.
fail() {
    echo "$*" >&2
    exit 1
}

# The figure of a row of the README's tables: its first cell, the number of the cell.
figure() { # ROW CELL
    awk -F ' *[|] *' -v row="$1" -v cell="$2" '$2 == row { gsub(/[^0-9]/, "", $(cell + 1)); print $(cell + 1) }' README.md | grep -x '[0-9]*' ||
        fail "the README has no figure in cell $2 of '$1'"
}

# A measured figure, which is not 0, is at most the one that is said.
at_most() { # WHAT MEASURED SAID
    echo "$1: $2, and at most $3 is said"
    [ "$2" -gt 0 ] && [ "$2" -le "$3" ] || fail "$1: not so"
}

# Symbols and sections: two functions from outside, nothing that can be written, code that can lie anywhere.
nm -u "$lib" | awk 'NF == 2 { print $2 }' | sort -u > "$out/undefined"
diff "$out/undefined" <(printf 'memcpy\nmemset\n') || fail "the library needs other functions than memcpy and memset"
readelf -hW "$lib" | grep -q 'Machine: .*X86-64' || fail "not for x86-64"
readelf -SW "$lib" | sed -n 's/^ *\[ *[0-9]*\] //p' > "$out/sections"
awk '$1 ~ /^\.(data|bss|tdata|tbss|init_array|ctors)/ || $7 ~ /W/ { print; bad = 1 } END { exit bad || NR < 10 }' "$out/sections" ||
    fail "the library has data of its own"
readelf -rW "$lib" | awk '$3 ~ /^R_/ { print $3 }' | sort -u > "$out/relocations"
diff "$out/relocations" <(printf 'R_X86_64_PC32\nR_X86_64_PLT32\n') || fail "code that cannot lie anywhere"
size() { # NAMES-BEGIN
    objdump -h "$lib" | awk -v name="$1" 'index($2, name) == 1 { print $3 }' | { sum=0; while read -r n; do sum=$((sum + 16#$n)); done; echo "$sum"; }
}
for part in text:.text constants:.rodata; do
    found=$(size "${part#*:}")
    said=$(figure "${part%:*}" 2)
    at_most "${part%:*}" "$found" "$said"
done

# Instructions: no wider registers than SSE's, and no lent octets by an instruction that wants them aligned.
objdump -d -r --no-show-raw-insn "$lib" > "$out/code"
none "$out/code" -E '%[yz]mm|%k[0-7]'
awk '/%xmm/ && /\(/ && !/\(%rsp|\(%rip/ && $2 !~ /^(movdqu|movup[sd]|mov[dq]|movs[sd]|mov[hl]p[sd]|pinsrw)$/ { print; bad = 1 } END { exit bad }' "$out/code" ||
    fail "an instruction that may want its octets aligned"

# Stack: the most there can be by the machine code, what calls really took, and what the README says.
awk -f tests/c/stack.awk "$out/code" | sort > "$out/stack.most"
gcc -std=c11 -g -O1 $flags tests/c/stack.c "$lib" -o "$out/stack"
"$out/stack" | sort > "$out/stack.taken"
nm -g --defined-only "$lib" | awk 'NF == 3 { print $3 }' | sort | diff - <(cut -d' ' -f1 "$out/stack.most") || fail "an entry whose stack is not known"
join -a 1 "$out/stack.most" "$out/stack.taken" > "$out/stack.both"
while read -r name most taken; do
    said=$(figure "\`$name\`" 2)
    at_most "stack of $name, by its code" "$most" "$said"
    at_most "stack of $name, in calls that were made" "${taken:-0}" "$most"
done < "$out/stack.both"

# Time: printed, and far from the limit on any machine.
gcc -std=c11 -g -O2 $flags tests/c/worst_time.c "$lib" -o "$out/worst_time"
"$out/worst_time" 1000 > "$out/time" || fail "a call took more than 1000 microseconds"
cut -d' ' -f1 "$out/time" | sort | diff - <(cut -d' ' -f1 "$out/stack.most") || fail "an entry whose time is not known"
while read -r name took; do
    said=$(figure "\`$name\`" 3)
    echo "time of $name: $took microseconds at the worst, and $said is said"
done < "$out/time"

# The program with no C library, and with two functions only.
gcc -std=c11 -O2 $flags -ffreestanding -nostdlib -static tests/c/bare.c "$lib" -o "$out/bare"
status=0
"$out/bare" || status=$?
[ "$status" -eq 12 ] || fail "the program with no C library ends with $status, and not with 12"
echo "with no C library: linked, and ended with 12"

# Frames and lent buffers: natively with the compiler's checks, as C++ where that can be, and under valgrind.
wrap="-Wl,--wrap=memcpy,--wrap=memset"
checked="-fsanitize=undefined -fno-sanitize-recover=all"
gcc -std=c11 -g -O1 $flags $checked tests/c/frames.c "$lib" -o "$out/frames.checked"
g++ -std=c++17 -g -O1 $flags -x c++ tests/c/frames.c -x none "$lib" -o "$out/frames++"
gcc -std=c11 -g -O1 $flags tests/c/frames.c "$lib" -o "$out/frames"
gcc -std=c11 -g -O1 $flags $checked $wrap tests/c/lending.c "$lib" -o "$out/lending.checked"
gcc -std=c11 -g -O1 $flags $wrap tests/c/lending.c "$lib" -o "$out/lending"
"$out/frames.checked"
"$out/frames++" > /dev/null
"$out/lending.checked"
valgrind --quiet --error-exitcode=9 "$out/frames" > /dev/null
valgrind --quiet --error-exitcode=9 "$out/lending" > /dev/null
