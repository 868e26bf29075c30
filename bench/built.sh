# Read by the scripts beside it: `built CRATE` leaves in $program the path of the crate's program, and builds it where
# it is missing or older than a source, so that nothing stale is timed.
top=$(cd "$(dirname "$0")/.." && pwd) || exit 1

is_stale() {
    [ ! -x "$1" ] ||
        [ -n "$(find "$top/crates.txt" "$top/crates" -name out -prune -o -type f -newer "$1" -print | head -n 1)" ]
}

built() {
    program=$top/crates/$1/out/$1
    is_stale "$program" || return 0
    rm -f "$program"
    (cd "$top/crates/$1" && rt run >"$top/build.log" 2>&1)
    [ -x "$program" ] && touch "$program"
    if is_stale "$program"; then
        echo "bench: $1 could not be built; build.log has all of the output" >&2
        exit 1
    fi
}
