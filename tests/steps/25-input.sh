#!/usr/bin/env bash
# a busy state with each octet changed in turn; bad packets, images, questions, look-ups and streams from C; a part under valgrind
set -euo pipefail
cd "$(dirname "$0")/../.."
. tests/steps/tools.sh
get valgrind valgrind
need gcc valgrind
library
out=target/tests/c
mkdir -p "$out"
for program in one_octet bad_input bad_advertising bad_addresses bad_bredr bad_images bad_diagnosis bad_why bad_look_up bad_stream; do
    gcc -std=c11 -g -O1 -Wall -Wextra -Werror -Iinclude "tests/c/$program.c" target/staticlib/libhub.a -o "$out/$program"
    "$out/$program"
done
# Only some octets and lengths here; the whole takes minutes (tests/README.md).
valgrind --quiet --error-exitcode=9 "$out/one_octet" "${HUB_STRIDE:-31}"
valgrind --quiet --error-exitcode=9 "$out/bad_input" "${HUB_STRIDE:-101}"
valgrind --quiet --error-exitcode=9 "$out/bad_advertising"
valgrind --quiet --error-exitcode=9 "$out/bad_addresses"
valgrind --quiet --error-exitcode=9 "$out/bad_bredr"
valgrind --quiet --error-exitcode=9 "$out/bad_images" "${HUB_STRIDE:-101}"
valgrind --quiet --error-exitcode=9 "$out/bad_diagnosis" "${HUB_STRIDE:-101}"
valgrind --quiet --error-exitcode=9 "$out/bad_why" "${HUB_STRIDE:-101}"
valgrind --quiet --error-exitcode=9 "$out/bad_look_up"
valgrind --quiet --error-exitcode=9 "$out/bad_stream" "${HUB_STRIDE:-4099}"
