#!/usr/bin/env bash
# install.sh PREFIX: puts the programs dashboard, timeline and explain into PREFIX/bin, and their manual pages into PREFIX/share/man/man1.
# DESTDIR, where it is set, is put before PREFIX.
#
# The toolchain leaves an executable of a proved crate alone: `rt try` runs a program without proof, and keeps nothing. So this script takes what
# the gate left (`rt ci`). For a program of which nothing is there, or of which a source is newer, it calls `rt run`, which proves the
# crate and all crates below it first: a few minutes for timeline and explain, up to an hour for dashboard. Proved libraries are kept, so a second call is short.
set -eu
here=$(cd "$(dirname "$0")" && pwd)
prefix=${1:?usage: install.sh PREFIX}
to=${DESTDIR:-}$prefix

# The crates of the repository on which a crate stands, and itself.
below() {
    awk -v top="$1" '
        /^#/ || !NF { next }
        { split($1, head, ":"); name = head[1]; known[name] = 1; for (k = 2; k <= NF; k++) needs[name] = needs[name] " " $k }
        function visit(name,   parts, count, k) {
            if (name in seen || !(name in known)) return
            seen[name] = 1
            print name
            count = split(needs[name], parts, " ")
            for (k = 1; k <= count; k++) visit(parts[k])
        }
        END { visit(top) }' "$here/crates.txt"
}

# A program is there, and no source of its crate or of one below it is newer.
is_fresh() {
    local program=$here/crates/$1/out/$1 crate
    [ -x "$program" ] || return 1
    for crate in $(below "$1"); do
        [ -z "$(find "$here/crates/$crate/src" -name '*.rt' -newer "$program" -print -quit)" ] || return 1
    done
}

log=$(mktemp)
trap 'rm -f "$log"' EXIT
install -d "$to/bin" "$to/share/man/man1"
for name in dashboard timeline explain; do
    if ! is_fresh "$name"; then
        echo "install.sh: $name isn't built, or is older than a source: proving and building it" >&2
        # (it is also run once, on nothing, which is a usage error or a refused input)
        (cd "$here/crates/$name" && rt run </dev/null) >"$log" 2>&1 || true
        if ! is_fresh "$name"; then
            tail -n 20 "$log" >&2
            echo "install.sh: $name wasn't built: its crate isn't proved" >&2
            exit 1
        fi
    fi
    install -m 755 "$here/crates/$name/out/$name" "$to/bin/"
    install -m 644 "$here/man/$name.1" "$to/share/man/man1/"
done
echo "installed dashboard, timeline and explain below $to"
