#!/usr/bin/env bash
# the independent hub: the bench examples, every rule, and demand 3 on random calls; the comparison, which must find each fault that is put in
set -euo pipefail
cd "$(dirname "$0")/.."
. steps/tools.sh
need cargo
export CARGO_TARGET_DIR="$PWD/../target/tests"
cargo test --release --offline --quiet -p reference -p calls -p compare
