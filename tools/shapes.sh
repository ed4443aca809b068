#!/usr/bin/env bash
# The five shapes of `klaverdomp bench` in two libraries that take turns in one process: processor time of the library by that of the
# other, the median of rounds and, in brackets, its quartiles. `tools/shapes.sh FOLDER [SECONDS]` takes the libklaverdomp.a of that folder
# as the other, and so many seconds a shape (10). KLAVERDOMP_LIB_DIR names a folder with libklaverdomp.a. Where what they write differs,
# that is said and the status is 1.
set -euo pipefail
other=$(realpath -e "$1/libklaverdomp.a")
seconds=${2:-10}
cd "$(dirname "$0")/.."
library=${KLAVERDOMP_LIB_DIR:-target/staticlib}/libklaverdomp.a
made=$(mktemp -d)
trap 'rm -rf "$made"' EXIT
. tools/other.sh
rename_other "$other" "$made/other.a"
gcc -O2 -Wall tools/shapes.c "$library" "$made/other.a" -o "$made/shapes" -lm

shape() { # B Hq Hkv P S D
    printf 'B%s Hq%s Hkv%s P%s S%s D%s: ' "$@"
    "$made/shapes" "$seconds" "$@"
}

shape 1 8 8 511 1 64
shape 1 32 8 2047 1 128
shape 8 8 8 255 1 64
shape 1 8 8 0 512 64
shape 1 8 2 0 2048 64
