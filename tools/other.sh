# For scripts that hold two libraries beside each other in one program.

rename_other() { # LIBRARY RENAMED: a copy whose exported functions are named other_ in place of klaverdomp_
    objcopy --redefine-syms=<(nm -g --defined-only "$1" | sed -n 's/.* T klaverdomp_\(.*\)/klaverdomp_\1 other_\1/p') "$1" "$2"
}
