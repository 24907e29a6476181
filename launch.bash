# What the launchers share: the program behind one is proved and built where a source is newer than it. A launcher sets `name`, its own
# name; `crate`, the crate of its program; and `title`, what messages call that program.
set -uo pipefail
top=$(dirname "$(readlink -f "$0")")
target=$top/target
program=$top/crates/$crate/out/$crate
built=$target/$name.built
header=$top/include/iscc.h
# A reader that goes away is told as a write that fails, not by the death of the program.
trap '' PIPE

say() {
    printf '%s: %s\n' "$name" "$*" >&2
}

# Whether no source is newer than the program, or than the last time that rt found nothing to do. What rt makes, in a crate's out/, is
# no source.
up_to_date() {
    local mark=$program sources
    [ -x "$program" ] || return
    [ "$built" -nt "$mark" ] && mark=$built
    mapfile -d '' sources < <(find "$top/crates" -mindepth 2 -maxdepth 2 ! -name out -print0)
    [ -z "$(find "${sources[@]}" "$top/crates.txt" -newer "$mark" -print -quit)" ]
}

# Whether rt is here and can write all that it writes: where it cannot, its verdict is that of an earlier run.
can_build() {
    command -v rt >/dev/null || return
    if [ -e "$target" ]; then
        [ -w "$target" ]
    else
        [ -w "$top" ]
    fi && [ -z "$(find "$top"/crates/*/ -maxdepth 0 ! -writable -print -quit)" ] &&
        [ -z "$(find "$top"/crates/*/out ! -type l ! -writable -print -quit 2>/dev/null)" ]
}

# What rt builds of a program it runs at once; the halls' programs, which get no word here, only say how they are used.
prove_and_build() {
    local log=$target/$name.log
    mkdir -p "$target" && touch "$built.start" || return
    if ! (cd "$top/crates/$crate" && rt run) </dev/null >"$log" 2>&1; then
        cat "$log" >&2
        say "$title could not be built"
        return 1
    elif [ ! -x "$program" ]; then
        say "all is proved, but $program is gone: remove ${program%/*} and try again"
        return 1
    fi
    # Sources that were changed meanwhile are newer.
    touch -r "$built.start" "$built"
}

# Quiet where nothing is to be done.
build() {
    up_to_date && return
    if can_build; then
        if [ -x "$program" ]; then
            say "a source is newer than $title: proving and building it where it has changed"
        else
            say "proving and building $title: some minutes the first time"
        fi
        prove_and_build
    elif [ -x "$program" ]; then
        say "a source is newer than $title, which runs as it was built last"
    else
        say "$title is not built, and the toolchain (rt) is missing or cannot write here"
        return 1
    fi
}

# The lines of the launcher's own comment, behind the first.
help_text() {
    sed -n '2,${/^#/!q; s/^# \{0,1\}//p}' "$0"
}

version_text() {
    local version
    version=$(sed -nE 's/^#define ISCC_VERSION_TEXT "(.*)"$/\1/p' "$header")
    [ -n "$version" ] || { say 'the version is missing in include/iscc.h' && return 1; }
    echo "$version"
}

# ---- the two halls' programs

# Hands on what the program says on standard error. Its last line there tells the status; a program that died has none, and could not tell.
closed() {
    local line status=2
    while IFS= read -r line || [ -n "$line" ]; do
        case $line in
        'closing '[012]) status=${line#closing } ;;
        *) say "$line" ;;
        esac
    done
    return "$status"
}

# open_streams WORD..: whether the program can answer and, where only the folder is given, be told commands. A file that it opens would
# take the place of a stream that is closed.
open_streams() {
    if ! { : 3>&1; } 2>/dev/null; then
        say 'cannot write: standard output is closed'
        return 1
    elif { : 3<&0; } 2>/dev/null; then
        return
    elif [ "$#" -lt 2 ]; then
        say 'cannot read the commands: standard input is closed'
        return 1
    fi
    exec </dev/null
}

# Whether a path is plain ASCII, which the program takes as it is.
is_plain() {
    local LC_ALL=C
    [[ $1 != *[!\ -~]* ]]
}

# on_folder DIR WORD..: the program on a folder that it has for itself, until it ends. Its files are for owner and group alone.
on_folder() {
    local lock log words=("$@")
    umask 007
    if ! command -v flock >/dev/null; then
        say 'flock is missing: Debian has it in util-linux'
        return 2
    elif [ ! -d "$1" ]; then
        say "$1 is no folder"
        return 2
    elif ! { exec {lock}<"$1"; } 2>/dev/null; then
        say "$1 cannot be read"
        return 2
    elif ! flock -n "$lock"; then
        say "another program is at work on $1"
        return 2
    fi
    # The program takes paths as UTF-8 text: for what may be none stands its descriptor.
    is_plain "$1" || words[0]=/dev/fd/$lock
    if [ "$name" = standby ] && [ "$#" = 3 ] && [ "$2" != ask ] && ! is_plain "$3" && { exec {log}<"$3"; } 2>/dev/null; then
        words[2]=/dev/fd/$log
    fi
    { "$program" "${words[@]}" 2>&1 >&3 3>&- | closed 3>&-; } 3>&1
}

# run_hall WORD..: the options, then the program.
run_hall() {
    case ${1-} in
    --help) help_text && exit || exit 2 ;;
    --version) version_text && exit || exit 2 ;;
    '' | -*)
        say "the first word is a folder; ./$name --help has the rest"
        exit 2
        ;;
    esac
    open_streams "$@" && build || exit 2
    on_folder "$@"
    exit "$?"
}
