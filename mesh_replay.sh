#!/bin/sh
# Runs the program.
#
#     ./mesh_replay.sh step < SCENARIO              as it is proved; proves and builds it first where that is not done yet
#     ./mesh_replay.sh --unproved step < SCENARIO   the same sources, built with no proof, which takes a minute or two
#
# Standard output and the exit status are the program's own. Where there is no program to run, the status is 125.
top=$(cd "$(dirname "$0")" && pwd) || exit 125
program="$top/crates/mesh_replay/out/mesh_replay"

say() {
    echo "mesh_replay: $*" >&2
}

# The libraries of this repository below a crate, each behind those that it stands on.
libraries_below() {
    awk -v top="$1" '
        function visit(crate, i, n, words) {
            if (seen[crate]++) return
            n = split(below[crate], words, " ")
            for (i = 1; i <= n; i++) if (words[i] in below) visit(words[i])
            if (crate != top) print crate
        }
        /^[^#]*:/ { split($0, sides, ":"); split(sides[1], name, " "); below[name[1]] = sides[2] }
        END { visit(top) }
    ' "$top/crates.txt"
}

# Whether the program is there, and no source that it is made of is newer.
is_built() {
    [ -x "$program" ] || return 1
    for crate in $(libraries_below mesh_replay) mesh_replay; do
        newer=$(find "$top/crates/$crate" -path '*/out' -prune -o -newer "$program" \( -name '*.rt' -o -name '*.antt' \) -print)
        [ -z "$newer" ] || return 1
    done
}

need_rt() {
    command -v rt >/dev/null && return
    say "the Rattle kit's 'rt' is not on the path"
    exit 125
}

# Proves the libraries and the program, and builds it.
prove() {
    need_rt
    log=$(mktemp) || exit 125
    libraries=$(libraries_below mesh_replay)
    count=$(($(echo "$libraries" | wc -l) + 1))
    number=0
    say "not proved on this machine yet: proving $count crates, one after another, which took an hour on one processor of 2.5 GHz ('$0 --unproved $*' answers in a minute or two)"
    for crate in $libraries; do
        number=$((number + 1))
        say "proving $crate ($number of $count)"
        (cd "$top/crates/$crate" && rt lib </dev/null >"$log" 2>&1) || refused "$crate"
    done
    say "proving mesh_replay ($count of $count)"
    (cd "$top/crates/mesh_replay" && rt run -- build </dev/null >"$log" 2>&1)
    [ -x "$program" ] || refused mesh_replay
    rm -f "$log"
}

refused() {
    tail -n 20 "$log" >&2
    rm -f "$log"
    say "$1 was not built; 'rt check' in crates/$1 says why"
    exit 125
}

# Builds the same sources with no proof, and hands on what the program writes and how it ends.
run_unproved() {
    need_rt
    say "this build is not the proved one; '$0 $*' proves and builds that"
    told=$(mktemp) || exit 125
    (cd "$top/crates/mesh_replay" && exec rt try -- "$@") 2>"$told"
    status=$(sed -n 's/^run=ended status=\([0-9]*\) .*/\1/p' "$told" | tail -n 1)
    [ -n "$status" ] || cat "$told" >&2
    rm -f "$told"
    [ -n "$status" ] || say "the unproved build gives no answer: it has 60 seconds, and 1 MiB of output"
    exit "${status:-125}"
}

if [ "$1" = --unproved ]; then
    shift
    run_unproved "$@"
fi
is_built || prove "$@"
exec "$program" "$@"
