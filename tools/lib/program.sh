# What the scripts share that build a program of the repository, or look for one. They read it by '.', after they have set 'top', the repository's folder, and 'name', the
# program's.
# shellcheck shell=sh disable=SC2154

fail() {
    echo "$(basename -- "$0"): $1" >&2
    exit 1
}

# The repository's crates that the named one stands on, each after those below it, and the crate itself at the end.
below() {
    awk -v name="$1" '
        function visit(crate,    parts, count, i) {
            if (crate in seen || !(crate in listed)) return
            seen[crate] = 1
            count = split(listed[crate], parts, " ")
            for (i = 1; i <= count; i++) visit(parts[i])
            print crate
        }
        { sub(/#.*/, "") }
        /:/ {
            split($0, sides, ":")
            split(sides[1], words, " ")
            listed[words[1]] = sides[2]
        }
        END { visit(name) }
    ' "$top/crates.txt"
}

# Sets 'crates' to those that the program is made from. A program has the file main.rt, or another one that 'root' names.
find_crates() {
    [ -f "$top/crates/$name/src/${root:-main.rt}" ] || fail "crates/$name is no program of this repository"
    crates=$(below "$name")
    [ -n "$crates" ] || fail "crates.txt does not list $name"
}

# Whether the file $1 is there and none of the sources is newer: those in the parts (src, specs, proofs) of each crate that the other words name, and crates.txt. A folder
# is newer if a file came or went.
is_up_to_date() {
    [ -x "$1" ] || return 1
    built=$1
    parts=$2
    set --
    for crate in $crates; do
        for part in $parts; do
            [ ! -d "$top/crates/$crate/$part" ] || set -- "$@" "$top/crates/$crate/$part"
        done
    done
    [ -z "$(find "$top/crates.txt" "$@" -newer "$built" -print | head -n 1)" ]
}

# The program that is proved and built is up to date if no source is newer, and one that is only compiled if no code is, since it is made from src/ alone, nor the tool that
# makes it.
proved=$top/crates/$name/out/$name
unproved=$top/crates/$name/out/unproved/$name
sanitized=$top/crates/$name/out/sanitized/$name
quick=$top/crates/$name/out/quick/$name

is_proved() {
    is_up_to_date "$proved" "src specs proofs"
}

is_compiled() {
    is_up_to_date "$1" src && [ ! "$top/tools/try-program" -nt "$1" ]
}

need_rt() {
    command -v rt >/dev/null || fail "no rt on the path: put the Rattle kit's bin folder on it, then run this again"
}
