#!/usr/bin/env bash
# Builds the static library of the proved checker and reader and the program beside it, and runs a command of the program: bench/run.sh compare 1000 1
# With PLAIN=1, and for the command sources, the proved parts are left out: only the plain ones are built and run.
set -euo pipefail
cd "$(dirname "$0")/.."
mkdir -p bench/target
if [ -n "${PLAIN-}" ] || [ "${1-}" = sources ]; then
    cd bench
    cargo build --release --quiet --offline --no-default-features --target-dir target/plain
    exec target/plain/release/bench "$@"
fi
(cd crates/boundary_c && rt lib > ../../bench/target/boundary.log 2>&1) || { cat bench/target/boundary.log; exit 1; }
mkdir -p target/staticlib
cp crates/boundary_c/out/libboundary_c.a target/staticlib/libboundary.a
RATTLE_C_LIB="$(dirname "$(rt doc)")/c/liblibc_c.a"
export RATTLE_C_LIB
cd bench
cargo build --release --quiet --offline
target/release/bench "$@"
