# Functions for the scripts that build and run C hosts. The kit is for x86-64, and so are the archive and its hosts.
#
# The script that reads this file stands in the root of the project.

made=target/host
built=crates/qpl/out/libqpl.a
warnings="-Wall -Wextra -Wpedantic"
mkdir -p "$made"

# at_work NAME WHAT COMMAND..: runs a command of the kit, with its output in target/host/NAME.log. From nothing it proves for minutes, so after
# five seconds one line on standard error says what is done; where it fails, its last lines go there too.
at_work() {
    log=$made/$1.log what=$2 status=0
    shift 2
    (
        sleep 5 >/dev/null 2>&1
        # nothing is at work where the script was stopped meanwhile
        kill -0 $$ 2>/dev/null && echo "at work: proving and building $what; from nothing this takes some minutes ($log)" >&2
    ) &
    teller=$!
    "$@" >"$log" 2>&1 || status=$?
    kill "$teller" 2>/dev/null || true
    wait "$teller" 2>/dev/null || true
    [ "$status" = 0 ] || tail -5 "$log" >&2
    return "$status"
}

# in_crate NAME COMMAND..: runs a command of the kit in a crate's folder.
in_crate() (
    cd "crates/$1" || exit
    shift
    "$@"
)

# The archive, proved and built: crates/qpl/out/libqpl.a.
archive() { at_work archive "the archive" in_crate qpl rt lib; }

# The program bench, proved and built: target/host/bench runs it. The kit builds a program as it runs it, here on its stored text.
bench() { at_work bench "the program bench" in_crate bench rt run <crates/bench/stdin && cp crates/bench/out/bench "$made/bench"; }

# host NAME SOURCE: compiles a C host and links it with the archive; target/host/NAME runs it.
host() {
    # shellcheck disable=SC2086
    cc -std=c99 -O2 $warnings -Iinclude "$2" "$built" -o "$made/$1"
}

# traced_host NAME SOURCE: the same with the lines of its source, for a memory checker; target/host/NAME.traced runs it.
traced_host() {
    # shellcheck disable=SC2086
    cc -std=c99 -g -O2 $warnings -Iinclude "$2" "$built" -o "$made/$1.traced"
}
