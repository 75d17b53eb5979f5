#!/usr/bin/env bash
# the bench: it runs, and library and plain Rust agree on every case that it times
set -euo pipefail
cd "$(dirname "$0")/../.."
. tests/steps/tools.sh
need cargo
bench/run
