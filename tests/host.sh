#!/usr/bin/env bash
# The host's tests: the Rust workspace's own, the command line tool on .npy files and saved sessions that are made here, and what it leaves
# when something goes wrong around it.
# KLAVERDOMP_LIB_DIR names a folder with libklaverdomp.a; without it tools/static_library.sh makes the library first.
set -eu
cd "$(dirname "$0")/.."

[ -n "${KLAVERDOMP_LIB_DIR:-}" ] || tools/static_library.sh
cargo test --release --offline --manifest-path host/Cargo.toml --workspace
cargo build --release --offline --manifest-path host/Cargo.toml --workspace
python3 -B tests/command_line.py host/target/release/klaverdomp
python3 -B tests/edges.py host/target/release/klaverdomp
