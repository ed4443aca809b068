#!/usr/bin/env bash
# Proves the crate klaverdomp_c and all below it, builds its static library and puts that at target/staticlib/libklaverdomp.a.
# `rt lib` makes anew only what has changed since the last time.
set -euo pipefail
cd "$(dirname "$0")/.."
(cd crates/klaverdomp_c && rt lib)
mkdir -p target/staticlib
cp crates/klaverdomp_c/out/libklaverdomp_c.a target/staticlib/libklaverdomp.a
