# The library that C programs link, and how they are compiled over it. Sourced by scripts that stand at the repository's top.
#
# DONZHIKAR_LIBRARY names another library with the same functions, to try the programs themselves; otherwise it is made anew.
library=${DONZHIKAR_LIBRARY:-target/staticlib/libdonzhikar.a}

# library_made LOG: makes the library where none is named. What that says goes to the file, and its end is shown where it fails.
library_made() {
    [ -z "${DONZHIKAR_LIBRARY:-}" ] || return 0
    ./library >"$1" 2>&1 || {
        tail -n 20 "$1" >&2
        return 1
    }
}

# What a program over the library is linked with. Another library may be written in another language, and need the library of mathematics.
linked() {
    echo "$library" ${DONZHIKAR_LIBRARY:+-lm}
}

# c_program PROGRAM SOURCE_OR_FLAG..: a program over the library. Libraries that it needs besides are named after its sources.
c_program() {
    local program=$1
    shift
    cc -std=c11 -O2 -Wall -Wextra -Werror -Iinclude -Itests/c "$@" $(linked) -o "$program"
}
