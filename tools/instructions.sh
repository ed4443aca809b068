#!/usr/bin/env bash
# Instructions of one call, in millions, of the library and of the plain C program, as callgrind counts them: steady where times are not.
# Where the step entry takes the call, how many more it needs than the general entry.
# Without an argument the five shapes of `klaverdomp bench` and two of them with a score cap, then a decode step as T grows and as B * Hq
# grows. `tools/instructions.sh B Hq Hkv P S D [SOFTCAP]` counts one shape. KLAVERDOMP_LIB_DIR names a folder with libklaverdomp.a.
set -euo pipefail
cd "$(dirname "$0")/.."
library=${KLAVERDOMP_LIB_DIR:-target/staticlib}/libklaverdomp.a
made=$(mktemp -d)
trap 'rm -rf "$made"' EXIT
gcc -O3 -ffp-contract=off -c reference/reference.c -o "$made/reference.o"
gcc -O2 -Wall tools/instructions.c "$made/reference.o" "$library" -o "$made/instructions" -lm

count() { # FUNCTION B Hq Hkv P S D [SOFTCAP]
    local function=$1
    shift
    LD_BIND_NOW=1 valgrind --tool=callgrind --callgrind-out-file=/dev/null --toggle-collect="$function" "$made/instructions" "$@" 2>&1 |
        awk '/Collected/ { print $4; found = 1 } END { exit !found }'
}

shape() { # B Hq Hkv P S D [SOFTCAP]
    local ours theirs
    ours=$(count klaverdomp_attention_3 "$@")
    theirs=$(count reference_attention "$@")
    printf 'B%s Hq%s Hkv%s P%s S%s D%s%s: ' "${@:1:6}" "${7:+ softcap $7}"
    echo "$ours $theirs" | awk '{ printf "library %.2f M, plain C %.2f M, ratio %.2f", $1 / 1e6, $2 / 1e6, $1 / $2 }'
    [ "$1 $5" != "1 1" ] || printf ', step entry %+d' $(($(count klaverdomp_step_3 "$@") - ours))
    echo
}

if [ $# -gt 0 ]; then
    shape "$@"
    exit
fi
shape 1 8 8 511 1 64
shape 1 32 8 2047 1 128
shape 8 8 8 255 1 64
shape 1 8 8 0 512 64
shape 1 8 2 0 2048 64
shape 1 8 8 511 1 64 30
shape 1 8 8 0 512 64 30
for past in 127 255 511 1023 2047; do shape 1 8 8 "$past" 1 64; done
for batches in 1 2 4 8; do shape "$batches" 8 8 511 1 64; done
for heads in 8 16 32; do shape 1 "$heads" "$heads" 511 1 64; done
