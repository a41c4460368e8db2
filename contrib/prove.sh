# How `./wqd --build` proves and builds the program. It sets `top`, the directory of the repository, and `built`, the path of the
# program, first.
. "$top/contrib/lanes.sh"

# The crates that the program is built from, and the program itself, lowest first.
crates() {
    awk -F: '
        function visit(name,    words, count, i) {
            if (name in seen) return
            seen[name] = 1
            count = split(below[name], words, " ")
            for (i = 1; i <= count; i++) if (words[i] in below) visit(words[i])
            print name
        }
        !/^#/ { below[$1] = $2 }
        END { visit("wqd") }' "$top/crates.txt"
}

# How many bytes of code, specifications and proofs a crate has.
weight() {
    find "$top/crates/$1/src" "$top/crates/$1/specs" "$top/crates/$1/proofs" -type f -exec cat {} + 2> /dev/null | wc -c
}

# Copies these crates alone into a directory, without what was built of them.
copy_crates() {
    mkdir "$1/crates" && cp "$top/HANDLES" "$1/" || return 1
    for crate in $(crates); do
        grep "^$crate:" "$top/crates.txt" >> "$1/crates.txt" && mkdir "$1/crates/$crate" || return 1
        for part in "$top/crates/$crate"/*; do
            [ "${part##*/}" = out ] || cp -R "$part" "$1/crates/$crate/" || return 1
        done
    done
}

# The crates that are proved by now, as the prover tells it.
proved() {
    sed -n -E 's/^rt: ([a-z_]+) (proved|is kept).*/\1/p' "$1/log"
}

# Tells each crate that was proved since the last look, and how long the others may take: as long for each byte as those
# that are proved.
tell() {
    proved "$1" | tail -n +$((told + 1)) > "$1/new"
    while read -r crate; do
        told=$((told + 1))
        done_weight=$((done_weight + $(weight "$crate")))
        took=$(($(date +%s) - began))
        left=$((took * (all_weight - done_weight) / (done_weight + 1) / 60))
        if [ "$left" -gt 1 ]; then rest=", about $left minutes left"; else rest=; fi
        echo "wqd: $crate is proved, $told of $count ($took s so far$rest)" >&2
    done < "$1/new"
}

# Proves the copied crates, several at once, and builds the program.
prove_copy() {
    count=$(crates | wc -l)
    told=0 done_weight=0 all_weight=0
    for crate in $(crates); do all_weight=$((all_weight + $(weight "$crate"))); done
    : > "$1/log"
    # The kit's own temporary files have names that can be guessed, so they are in the copy too.
    mkdir "$1/tmp" || return 1
    (cd "$1" && TMPDIR="$1/tmp" RT_JOBS="${RT_JOBS:-$(lanes)}" exec rt ci) > "$1/log" 2>&1 &
    prover=$!
    while kill -0 "$prover" 2> /dev/null; do
        tell "$1"
        sleep 1
    done
    tell "$1"
    wait "$prover"
}

# The checksum of all files of the copied crates.
sources() {
    (cd "$1" && find crates crates.txt HANDLES -type f | LC_ALL=C sort | xargs sha256sum | sha256sum | cut -d ' ' -f 1)
}

# Says how the program at $built was proved, from sources with this checksum: with what kit, and what that said at the end.
note() {
    echo "program $(sha256sum < "$built" | cut -d ' ' -f 1)"
    echo "sources $2"
    echo "commit $(git -C "$top" describe --always --dirty --abbrev=40 --match '' 2> /dev/null || echo unknown)"
    echo "kit $(rt version)"
    grep -E '^rt: [a-z_]+ (proved|is kept)' "$1/log"
    tail -n 1 "$1/log"
}

# Proves and builds the program. The copy is taken away in the end. Beside the program is a note of how it was proved.
prove_all() {
    began=$(date +%s)
    echo "wqd: the program is proved and built; that takes about an hour on four processors" >&2
    copy=$(mktemp -d) || return 1
    trap 'kill "$prover" 2> /dev/null; rm -rf "$copy"; exit 1' HUP INT TERM
    if copy_crates "$copy" && sum=$(sources "$copy") && prove_copy "$copy" && mkdir -p "${built%/*}" &&
        mv "$copy/crates/wqd/out/wqd" "$built" && note "$copy" "$sum" > "$built.proof"; then
        rm -rf "$copy"
        trap - HUP INT TERM
        touch "$built"
        echo "wqd: built in $(($(date +%s) - began)) s" >&2
        return 0
    fi
    tail -n 40 "$copy/log" >&2
    echo "wqd: the program could not be built" >&2
    rm -rf "$copy"
    return 1
}
