# programs.sh: how the commands and the tests build and run the proved programs. It is sourced; `top` is the repository's folder.

# Has rt prove and build a program where it is not built, or a file of the crates is newer. COMMAND is the name that messages begin with.
built() { # COMMAND CRATE
    local made=$top/crates/$2/out/$2 log=build/$2.log
    if [ -f "$made" ] && [ -z "$(find "$top/crates.txt" "$top/crates" -name out -prune -o -type f -newer "$made" -print -quit)" ]; then return 0; fi
    command -v rt >/dev/null 2>&1 || { echo "$1: there is no rt: the Rattle toolchain has to be on PATH" >&2; return 2; }
    echo "$1: proving and building the program, which takes some minutes the first time" >&2
    mkdir -p "$top/build"
    rm -f "$made"
    # rt run also runs the program: on nothing, and what that comes to does not count
    (cd "$top/crates/$2" && rt run) </dev/null >"$top/$log" 2>&1
    [ -f "$made" ] || { echo "$1: the program is not built: $log says why" >&2; return 2; }
}

# Leaves in `run` the words that run a program.
program() { # CRATE
    run=("$top/crates/$1/out/$1")
}
