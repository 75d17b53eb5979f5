#!/usr/bin/env bash
# the library from C: its header, alone and beside mgmt.h, its constants, a shift under valgrind, more than a million calls beside the independent hub
set -euo pipefail
cd "$(dirname "$0")/../.."
. tests/steps/tools.sh
export LC_ALL=C
get valgrind valgrind
need gcc g++ nm awk comm cargo valgrind
library
lib=target/staticlib/libhub.a
out=target/tests/c
mkdir -p "$out"
flags="-Wall -Wextra -Werror -Iinclude"

# The header by itself; it and the library bring no names but hub_ and HUB_.
gcc -std=c11 $flags -pedantic-errors -fsyntax-only -x c include/hub.h
g++ -std=c++17 $flags -pedantic-errors -fsyntax-only -x c++ include/hub.h
printf '#include <stddef.h>\n#include <stdint.h>\n' | gcc -std=c11 -dM -E -x c - | sort > "$out/names.without"
gcc -std=c11 -dM -E -x c include/hub.h | sort > "$out/names.with"
comm -13 "$out/names.without" "$out/names.with" > "$out/names.new"
grep -q '^#define HUB_STATE_LEN ' "$out/names.new"
none "$out/names.new" -v '^#define HUB_'
diff <(nm -g --defined-only "$lib" | awk 'NF == 3 { print $3 }' | sort) \
    <(printf 'hub_%s\n' clock command downgrade load look_up name on_air plug report save stream unplug upgrade why)

gcc -std=c11 -O2 $flags tests/c/constants.c "$lib" -o "$out/constants"
g++ -std=c++17 -O2 $flags -x c++ tests/c/constants.c -x none "$lib" -o "$out/constants++"
"$out/constants"
"$out/constants++" > /dev/null
for order in -UMGMT_FIRST -DMGMT_FIRST; do
    gcc -std=c11 -O2 $flags "$order" tests/c/beside_mgmt.c "$lib" -o "$out/beside"
    g++ -std=c++17 -O2 $flags "$order" -x c++ tests/c/beside_mgmt.c -x none "$lib" -o "$out/beside++"
    "$out/beside"
    "$out/beside++" > /dev/null
done

gcc -std=c11 -g -O1 $flags examples/host.c "$lib" -o "$out/host"
rm -f "$out/shift.image"
valgrind --quiet --error-exitcode=9 "$out/host" "$out/shift.image" "$out/shift.log" > "$out/first.txt"
valgrind --quiet --error-exitcode=9 "$out/host" "$out/shift.image" > "$out/second.txt"
cd tests
export HUB_LIB_DIR="$PWD/../target/staticlib" CARGO_TARGET_DIR="$PWD/../target/tests"
# The same calls every time, then others: their seed is printed, and HUB_SEED takes it again.
compare="cargo run --release --offline --quiet -p compare --bin compare --"
$compare "${HUB_FIXED_CALLS:-300000}" 1
$compare "${HUB_CALLS:-1000000}" "${HUB_SEED:-$(date +%s%N)}"
