#!/usr/bin/env bash
# Proves and builds a program where it is missing or a source of it is newer, and only then calls `rt`. A tool calls it as a command:
#
#     tools/building.sh CALLER PROGRAM
#
# The messages begin with CALLER. The status is 0 where target/bin/PROGRAM is ready, and otherwise 2.
#
# `rt run` proves and builds the program as crates/PROGRAM/out/PROGRAM, and tries it on an empty input. Only where all of that goes
# well the program is copied to target/bin.
#
# A command of the shell sources it. Before that it sets `caller`, and `root`, the folder of the repository; then it calls `begin` and
# `ready PROGRAM`. Where the command itself needs no temporary folder, `heed_signals` takes the place of `begin`.
#
# A second run waits for the first, whichever programs the two build, and then finds its own built, or builds it.
program=
began=  # there from the start of a build to its good end; where a build failed or was ended it stays, and the program isn't trusted
built=  # the name of the program that is ready
work=   # the temporary folder, from the moment that it is needed
child=  # what a signal has to end as well: a process, or with a minus its whole group

say() {
    printf '%s: %s\n' "$caller" "$*" >&2
}

fail() {
    say "$@"
    exit 2
}

# shellcheck disable=SC2317 # the traps call it
clean() {
    [ -z "$child" ] || kill -- "$child" 2> /dev/null
    [ ! -d "$work" ] || rm -rf "$work"
}

# heed_signals: lets the temporary folder be removed, and the child ended, when the command ends, by a signal too.
heed_signals() {
    trap clean EXIT
    trap 'exit 129' HUP
    trap 'exit 130' INT
    trap 'exit 141' PIPE
    trap 'exit 143' TERM
}

# make_folder: makes the temporary folder, once.
make_folder() {
    [ -z "$work" ] || return 0
    { work=$(mktemp -d) && [ -d "$work" ]; } || fail "no temporary folder can be made in ${TMPDIR:-/tmp}"
}

# begin: heeds signals, and makes the temporary folder.
begin() {
    heed_signals
    make_folder
}

# crates PROGRAM: prints the crates of crates.txt that a program is made of, in the order in which `rt` proves them, itself at the end.
crates() {
    sed 's/#.*//; s/:/ /' "$root/crates.txt" | awk -v program="$1" '
        function visit(name,   count, below, i) {
            if (name in seen || !(name in row)) return
            seen[name]
            count = split(row[name], below)
            for (i = 2; i <= count; i++) visit(below[i])
            print name
        }
        NF { row[$1] = $0 }
        END { visit(program) }'
}

# fresh PROGRAM: the program is there, and nothing that it is made of is newer. A folder is newer where a file was taken out of it.
fresh() {
    local crate part newer sources=("$root/crates.txt")
    [ -x "$program" ] && [ ! -e "$began" ] || return
    for crate in $(crates "$1"); do
        sources+=("$root/crates/$crate/src")
        for part in specs proofs; do
            [ ! -e "$root/crates/$crate/$part" ] || sources+=("$root/crates/$crate/$part")
        done
    done
    [ ${#sources[@]} -gt 1 ] || return
    newer=$(find "${sources[@]}" -newer "$program" -print -quit 2> /dev/null) && [ -z "$newer" ]
}

# hold: takes the lock of the build, and waits while another run has it. `rt` and what it starts have it too, and it is free as soon
# as the last of them has ended, however that was.
hold() {
    { mkdir -p "$root/target" && exec {lock}>> "$root/target/run.lock"; } 2> /dev/null || fail "$root/target can't be written"
    if ! command -v flock > /dev/null; then
        say 'there is no flock: nothing keeps a second run from building at the same time'
        return
    fi
    flock -n "$lock" 2> /dev/null && return
    say 'another run is building the program; waiting for it'
    flock "$lock" &
    child=$!
    wait "$child" || say "$root/target/run.lock can't be locked: nothing keeps a second run from building at the same time"
    child=
}

# progress CRATE..: reads what `rt` says, keeps it as `said`, and tells of each of these crates that was proved now. `rt` says nothing
# of a crate that has not changed.
progress() {
    local row crate='' functions k
    said=()
    while IFS= read -r row || [ -n "$row" ]; do
        said+=("$row")
        [[ ! $row =~ ^crate\ ([^ ]+):\  ]] || crate=${BASH_REMATCH[1]}
        [[ $row =~ ^logic=proved\ functions=([0-9]+)( |$) ]] || continue
        functions=${BASH_REMATCH[1]}\ functions
        [ "$functions" != '1 functions' ] || functions='1 function'
        for ((k = 1; k <= $#; k++)); do
            [ "${!k}" != "$crate" ] || say "proved $crate ($functions), $k of $# crates"
        done
    done
}

# build PROGRAM: proves and builds the program. It then is as old as the start of the build, since `rt` leaves a program alone that
# would not change, and since a source that was changed meanwhile must count as newer.
build() {
    local made=$root/crates/$1/out/$1 parts
    make_folder
    parts=$(crates "$1")
    say 'proving and building the program; this takes about six minutes the first time'
    touch "$began" || fail "$root/target can't be written"
    mkfifo "$work/rows" || fail "the temporary folder ${work%/*} can't be written"
    set -m # a group of its own, so that all of it can be ended
    (cd "$root/crates/$1" && exec rt run) < /dev/null > /dev/null 2> "$work/rows" &
    child=-$!
    set +m
    # shellcheck disable=SC2086 # a word for each crate
    progress $parts < "$work/rows"
    if ! wait "${child#-}"; then
        child=
        printf '%s\n' "${said[@]}" >&2
        fail 'the program could not be built'
    fi
    child=
    [ -x "$made" ] || fail "rt run in crates/$1 has made no $made"
    # Never half a program under its name.
    { mkdir -p "${program%/*}" && cp "$made" "$program.made" && touch -r "$began" "$program.made" \
        && mv -f "$program.made" "$program" && rm "$began"; } || fail "$root/target can't be written"
}

# ready PROGRAM: sees to it, once, that a program is built, and leaves its path as `program`.
ready() {
    [ "$built" != "$1" ] || return 0
    program=$root/target/bin/$1
    began=$root/target/$1.began
    if ! fresh "$1"; then
        command -v rt > /dev/null || fail 'the program has to be built, and the Rattle toolchain (rt) is not there'
        hold
        fresh "$1" || build "$1"
        exec {lock}>&-
    fi
    built=$1
}

if [ "${BASH_SOURCE[0]}" = "$0" ]; then
    set -u
    self=$(readlink -f "$0") || exit 2
    root=${self%/tools/*}
    if [ $# -ne 2 ]; then
        echo 'usage: tools/building.sh CALLER PROGRAM' >&2
        exit 2
    fi
    caller=$1
    heed_signals
    ready "$2"
fi
