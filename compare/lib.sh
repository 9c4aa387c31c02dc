# What the scripts of compare/ share: where the oracle and the library are, or what is missing and how to get it.

fail() {
    printf '%s\n' "$*" >&2
    exit 2
}

# The path of a folder from the root on, since the scripts change folders.
absolute() {
    (cd "$1" 2>/dev/null && pwd) || fail "missing: the folder $1"
}

# Sets oracle to the program of a build (debug or release): from $built, or built in target/oracle out of $sources. An oracle that was
# built there from another folder is built again.
find_oracle() {
    if [ -z "$built" ]; then
        [ -x "$sources/build.sh" ] || fail "missing: the oracle (the real crate's code behind lines).
There is no build.sh in $sources.
It is raft-engine 0.4.2's sources, unchanged, with the glue that docs/DIFFERENCES.md names, and a build.sh that builds them.
Give its folder with --oracle FOLDER, or one that is built with --built FOLDER (it holds debug/oracle and release/oracle, and for bench
and make_replay the folder crate)."
        command -v cargo >/dev/null || fail "missing: cargo and rustc, with which the oracle and the comparison are built"
        sources=$(absolute "$sources") || exit 2
        built=$root/target/oracle
        if [ ! -x "$built/debug/oracle" ] || [ ! -x "$built/release/oracle" ] || [ "$(cat "$built/from" 2>/dev/null)" != "$sources" ]; then
            echo "building the oracle in target/oracle" >&2
            rm -rf "$built"
            mkdir -p "$built"
            "$sources/build.sh" "$built" >"$built/build.log" 2>&1 || fail "the oracle did not build; the end of target/oracle/build.log:
$(tail -5 "$built/build.log")
Where crates are missing: run as root '$sources/build.sh apt FOLDER' (Debian 12), then give --built FOLDER."
            echo "$sources" >"$built/from"
        fi
    fi
    built=$(absolute "$built") || exit 2
    oracle=$built/$1/oracle
    [ -x "$oracle" ] || fail "missing: $oracle"
}

# Builds the static library of a crate in target/staticlib.
build_library() {
    command -v rt >/dev/null || fail "missing: rt, the command of the Rattle kit, with which the library is built"
    (cd "$root/crates/$1" && rt lib) || fail "the library $1 is not proved, so it was not built"
    mkdir -p "$root/target/staticlib"
    cp "$root/crates/$1/out/lib$1.a" "$root/target/staticlib"
}

# Builds a program, crates/NAME/out/NAME, and runs it on its input.
build_program() {
    command -v rt >/dev/null || fail "missing: rt, the command of the Rattle kit, with which the program is built"
    (cd "$root/crates/$1" && rt run <stdin >/dev/null) || fail "the program $1 is not proved, so it was not built"
}

# Sets speed to the folder of libspeed.a and libspeed_tables.a. To be called before find_library, which may set RAFT_LOG_LIB.
find_speed() {
    for name in speed speed_tables; do
        [ -n "${RAFT_LOG_LIB:-}" ] || build_library "$name"
    done
    speed=$(absolute "${RAFT_LOG_LIB:-$root/target/staticlib}") || exit 2
    for name in speed speed_tables; do
        [ -f "$speed/lib$name.a" ] || fail "missing: $speed/lib$name.a"
    done
}

# Sets RAFT_LOG_LIB to the folder of libraft_log.a.
find_library() {
    if [ -z "${RAFT_LOG_LIB:-}" ]; then
        build_library raft_log
        RAFT_LOG_LIB=$root/target/staticlib
    fi
    RAFT_LOG_LIB=$(absolute "$RAFT_LOG_LIB") || exit 2
    [ -f "$RAFT_LOG_LIB/libraft_log.a" ] || fail "missing: $RAFT_LOG_LIB/libraft_log.a"
    export RAFT_LOG_LIB
}
