# What the program stands on, and which program is built from it: for the scripts `gnap` and `build`, which set `top`, the folder that they are in.
# shellcheck shell=sh disable=SC2034,SC2154

# How long ./build takes on four processors, and the unproved program on one.
minutes=30
seconds=80

crate="$top/crates/gnap"
proved="$crate/out/gnap"
unproved="$crate/out/unproved"

say() {
    echo "${0##*/}: $*" >&2
}

need_rt() {
    if ! command -v rt >/dev/null; then
        say "the command rt isn't on PATH; it is in the folder bin of the kit rattle, and nothing can be built without it"
        exit 1
    fi
}

# The lines of crates.txt that name the program's crate and the crates that it stands on, be it by others.
crate_lines() {
    sed 's/#.*//' "$top/crates.txt" | awk -F: '
        /^[a-z]/ { split($1, words, " "); line[words[1]] = $0; below[words[1]] = $2 }
        function visit(name, deps, count, i) {
            if (!(name in line) || name in seen) return
            seen[name]
            count = split(below[name], deps, " ")
            for (i = 1; i <= count; i++) visit(deps[i])
            print line[name]
        }
        END { visit("gnap") }'
}

crate_names() {
    crate_lines | sed 's/[ :].*//'
}

# The folders of their sources, from the top.
source_folders() {
    for name in $(crate_names); do
        for part in src specs proofs; do
            [ ! -d "$top/crates/$name/$part" ] || echo "crates/$name/$part"
        done
    done
}

# A sum of their sources in this folder: of the repository, or of a copy.
sum_of_sources() {
    {
        crate_lines
        # shellcheck disable=SC2046
        (cd "$1" && find $(source_folders) -type f \( -name '*.rt' -o -name '*.antt' \) -print0 | LC_ALL=C sort -z | xargs -0 sha256sum)
    } | sha256sum
}

# Whether the program in this file was built from the sources as they are. It is where no source has changed since the program's time. A checkout that
# goes and comes back changes files and leaves their text, so where some are newer, the sum decides that stands beside a program of these scripts.
is_current() {
    [ -x "$1" ] || return 1
    # (a file may change again in the moment in which it is read)
    moment=$(($(date +%s) - 1))
    # shellcheck disable=SC2046
    [ -n "$(cd "$top" && find crates.txt $(source_folders) -cnewer "$1" -print -quit)" ] || return 0
    [ -f "$1.sources" ] && [ -z "$(find "$1" -newer "$1.sources")" ] || return 1
    [ "$(sum_of_sources "$top")" = "$(cat "$1.sources")" ] || return 1
    touch -d "@$moment" "$1" "$1.sources" 2>/dev/null || true
}

# Puts a program in its place, with the sum of its sources: the new file, the place, the sum, and the moment (in seconds) at which the sources were read.
install_program() {
    mkdir -p "$crate/out" && cp "$1" "$2.$$" && echo "$3" >"$2.sources.$$" && touch -d "@$4" "$2.$$" "$2.sources.$$" &&
        mv "$2.$$" "$2" && mv "$2.sources.$$" "$2.sources"
}
