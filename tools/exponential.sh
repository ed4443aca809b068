#!/usr/bin/env bash
# The house exponential for one element, over a row and by itself: instructions, as callgrind counts them, and nanoseconds, as medians of
# rounds that are taken in turns. E by itself stands beside that of the plain C program. KLAVERDOMP_LIB_DIR names a folder with
# libklaverdomp.a. `tools/exponential.sh FOLDER` has the libklaverdomp.a of that folder beside it, in one program. Where the bits of what
# is measured differ, that is said and the status is 1.
set -euo pipefail
other=${1:+$(realpath -e "$1/libklaverdomp.a")}
cd "$(dirname "$0")/.."
library=${KLAVERDOMP_LIB_DIR:-target/staticlib}/libklaverdomp.a
made=$(mktemp -d)
trap 'rm -rf "$made"' EXIT
gcc -O3 -ffp-contract=off -c reference/reference.c -o "$made/reference.o"
. tools/other.sh
[ -z "$other" ] || rename_other "$other" "$made/other.a"
gcc -O2 -Wall ${other:+-DOTHER} tools/exponential.c "$made/reference.o" "$library" ${other:+"$made/other.a"} -o "$made/exponential" -lm
"$made/exponential" same

count() { # FUNCTION WORDS: the program's arguments
    local function=$1
    shift
    LD_BIND_NOW=1 valgrind --tool=callgrind --callgrind-out-file=/dev/null --toggle-collect="$function" "$made/exponential" "$@" 2>&1 |
        awk '/Collected/ { print $4; found = 1 } END { exit !found }'
}

instructions() { # WORDS ELEMENTS NAME=FUNCTION...: the library first, and its ratios to the others
    local words=$1 elements=$2 pair counted=
    shift 2
    for pair in "$@"; do
        counted+="${pair%=*}=$(count "${pair#*=}" $words)"$'\n'
    done
    printf '%s' "$counted" | awk -F= -v elements="$elements" '
        NR == 1 { library = $2 }
        NR > 1 { values = values ", "; ratios = ratios sprintf(", library / %s %.3f", $1, library / $2) }
        { values = values sprintf("%s %.2f", $1, $2 / elements) }
        END { print values ratios }'
}

echo 'instructions for one element:'
for length in 500 509 511 512; do
    printf 'row of %s: ' "$length"
    instructions "row $length" "$length" library=klaverdomp_exp_neg_row_1 ${other:+other=other_exp_neg_row_1}
done
printf 'by itself: '
instructions alone 1000 library=klaverdomp_exp_neg_1 ${other:+other=other_exp_neg_1} 'plain C=reference_exp_neg'
echo 'nanoseconds for one element, medians of rounds; in brackets the quartiles of the ratio:'
"$made/exponential" time
