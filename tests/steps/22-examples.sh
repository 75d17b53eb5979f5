#!/usr/bin/env bash
# the examples from the bench, long replies included, on the library and on the independent hub
set -euo pipefail
cd "$(dirname "$0")/.."
. steps/tools.sh
need cargo gcc
library
export HUB_LIB_DIR="$PWD/../target/staticlib" CARGO_TARGET_DIR="$PWD/../target/tests"
cargo run --release --offline --quiet -p compare --bin play -- examples/*.txt

# The examples of the README, one behind the other, are C that compiles and does what its comments say: controller 0 is powered, an image is refused, a device
# is nowhere.
cd ..
out=target/tests/c
mkdir -p "$out"
{
    echo '#include "hub.h"'
    echo '#include <stdio.h>'
    echo 'int main(void) {'
    sed -n '/^```c$/,/^```$/p' README.md | grep -v '^```\|^#include'
    echo 'printf("%u %zu\n", hub_answer(r), hub_count(r));'
    echo 'return 0; }'
} > "$out/readme.c"
gcc -std=c11 -O2 -Wall -Wextra -Werror -Iinclude "$out/readme.c" target/staticlib/libhub.a -o "$out/readme"
diff <("$out/readme") <(printf '%s\n' "code 1, index 0, 7 octets" "code 6, index 0, 4 octets" "72 at octet 4" "slot 32, slots walked 0" "0 23")
echo "the README's examples compile, power their controller, refuse an image and look for a device"
