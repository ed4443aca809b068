#!/usr/bin/env bash
# The header compiles without a warning as C99 and as C++, programs that call each of its functions end with status 0 from either, and so
# do the worked examples, of which one does not write a file that is locked. A program that calls a function of a former edition does not
# link. The library needs no name from outside but `memset`.
# KLAVERDOMP_LIB_DIR names a folder with libklaverdomp.a; without it the static library is made where it is missing.
set -eu
cd "$(dirname "$0")/.."

made=$(mktemp -d)
trap 'rm -rf "$made"' EXIT
flags="-O2 -Wall -Wextra -Wpedantic -Werror -Iinclude"
library=${KLAVERDOMP_LIB_DIR:-target/staticlib}/libklaverdomp.a
[ -f "$library" ] || tools/static_library.sh

needs=$(nm -u "$library" | awk '$1 == "U" { print $2 }' | sort -u)
[ "$needs" = memset ] || { echo "header: the library needs from outside:" $needs; exit 1; }

for program in header header_sessions; do
    gcc -std=c99 $flags -o "$made/${program}_c" "tests/$program.c" "$library"
    g++ -std=c++11 $flags -x c++ -o "$made/${program}_cpp" "tests/$program.c" -x none "$library"
    "$made/${program}_c"
    "$made/${program}_cpp"
done
for example in prefill_and_steps saved_session; do
    gcc -std=c99 $flags -o "$made/$example" "examples/$example.c" "$library"
    (cd "$made" && "./$example")
done

# the example does not write a file that another process has locked
if command -v flock > "$made/words"; then
    echo kept > "$made/held"
    ! flock "$made/held" "$made/saved_session" "$made/held" > "$made/words" || { echo "header: a locked file is written"; exit 1; }
    grep -q "another session has it open" "$made/words" && [ "$(cat "$made/held")" = kept ] || { cat "$made/words"; exit 1; }
else
    echo "header: skipped: there is no flock, so no locked file"
fi

links() { # FUNCTION
    printf 'unsigned %s(void);\nint main(void) { return (int)%s(); }\n' "$1" "$1" > "$made/links.c"
    LC_ALL=C gcc -o "$made/links" "$made/links.c" "$library" 2> "$made/words"
}
fails() { # WORDS
    echo "header: $1"
    cat "$made/words"
    exit 1
}
for function in klaverdomp_attention klaverdomp_step; do
    links "${function}_3" || fails "${function}_3 does not link"
    for former in "${function}_1" "${function}_2"; do
        ! links "$former" || fails "$former links"
        missing=$(sed -n "s/.*undefined reference to .\(.*\)'$/\1/p" "$made/words" | sort -u)
        [ "$missing" = "$former" ] || fails "$former is not what is missing"
    done
done
echo "header: ok"
