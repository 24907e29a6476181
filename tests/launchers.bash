# What the tests of the launchers share: cases by their names, a folder for them, and a small repository whose rt is a stand-in.
# Sourced at the repository's top by a script that has set `script`, its own path from there, with that script's words.

case ${1-} in
--help)
    sed -n '2,${/^#/!q; s/^# \{0,1\}//p}' "$script"
    exit
    ;;
-*)
    echo "$script: no option is called '$1'; see $script --help" >&2
    exit 2
    ;;
esac
only=${1-}
top=$PWD
folder=$top/target/$script
# The folder where it stands in a pattern.
shown=$(sed 's/[][*?\\]/\\&/g' <<<"$folder")
tree=$folder/tree
passed=0
failed=0

# expect NAME STATUS OUTPUT MESSAGE COMMAND..: the command's status and output, and a pattern that all it says on standard error
# matches; an empty pattern matches silence alone. Standard input is what the caller hands over. Where one case is asked for, the others run
# too, since a case may stand on those before it, and are not told.
expect() {
    local name=$1 due_status=$2 due_output=$3 pattern=$4 output message status
    shift 4
    output=$(
        "$@" 2>"$folder/message"
        echo "status $?"
    )
    status=${output##*status }
    output=${output%status *}
    output=${output%$'\n'}
    message=$(<"$folder/message")
    [ -z "$only" ] || [ "$only" = "$name" ] || return 0
    # shellcheck disable=SC2053
    if [ "$status" = "$due_status" ] && [ "$output" = "$due_output" ] && [[ $message == $pattern ]]; then
        echo "ok $name"
        passed=$((passed + 1))
        return
    fi
    echo "FAILED $name"
    printf '  expected status %s, output %q, message %q\n' "$due_status" "$due_output" "$pattern"
    printf '  found    status %s, output %q, message %q\n' "$status" "$output" "$message"
    echo "  run again: $script $name"
    failed=$((failed + 1))
}

# Prints the sums as the last line; its status is the verdict.
finish() {
    if [ "$((passed + failed))" -eq 0 ]; then
        echo "$script: no case is called '$only'" >&2
        exit 2
    fi
    echo "$passed passed, $failed failed"
    [ "$failed" -eq 0 ]
}

to_full_disk() { "$@" >/dev/full; }
to_closed_output() { "$@" >&-; }
to_unwritable_output() { "$@" 1<README.md; }
from_closed_input() { "$@" <&-; }
# The status of a command whose reader goes away after the first byte.
reader_gone() {
    "$@" | head -c 1 >/dev/null
    return "${PIPESTATUS[0]}"
}
# answers_at_once LINE COMMAND..: the answer to a line comes before the next line is typed.
answers_at_once() {
    local answer line=$1
    shift
    coproc TYPED { "$@"; }
    # shellcheck disable=SC2154
    echo "$line" >&"${TYPED[1]}"
    read -r -t 20 answer <&"${TYPED[0]}" && echo "$answer"
    exec {TYPED[1]}>&-
    wait "$TYPED_PID"
}
without_rt() { PATH=$folder/commands "$@"; }
in_folder() { (cd "$1" && "${@:2}"); }
# Root may read and write everything, but not like this.
restricted() {
    if [ "$(id -u)" = 0 ]; then
        setpriv --bounding-set=-dac_override,-dac_read_search "$@"
    else
        "$@"
    fi
}

# The lines that a launcher shows as its help, and its version.
help_of() { sed -n '2,${/^#/!q; s/^# \{0,1\}//p}' "$1"; }
due_version() { awk '$2 == "ISCC_VERSION_TEXT" { gsub(/"/, ""); print $3 }' include/iscc.h | grep .; }

# sentence_of NUMBER: as the C header has it.
sentence_of() {
    awk -v n="$1" '$2 == "=" && $3 + 0 == n { name = $1 }
        $1 == "case" && $2 == name ":" { sub(/^[^"]*"/, ""); sub(/";$/, ""); print }' include/iscc.h
}

# ---- where it is built

link_commands() {
    local command
    for command in bash env dirname readlink find sed awk mkdir touch cat flock; do
        ln -s "$(command -v "$command")" "$1" || return
    done
}

# prepare_tree LAUNCHER PROGRAM: the stand-in proves nothing: it writes down that it was called, says so, and ends with the status that a
# file has.
prepare_tree() {
    rm -rf "$tree" && mkdir -p "$tree"/{include,target,commands} "$tree/crates/$2"/{src,out} || return
    cp "$1" launch.bash "$tree" && cp include/iscc.h "$tree/include" && cp "crates/$2/out/$2" "$tree/crates/$2/out" || return
    echo 0 >"$tree/status"
    touch "$tree/crates.txt" "$tree/crates/$2/src/main.rt" "$tree/called"
    link_commands "$tree/commands" || return
    # shellcheck disable=SC2016
    printf '#!/bin/bash\necho called >>"%s"\necho "rt: no proof"\nexit "$(<"%s")"\n' "$tree/called" "$tree/status" >"$tree/commands/rt"
    chmod +x "$tree/commands/rt"
    touch -d '1 hour ago' "$tree/crates/$2"/src{/main.rt,} "$tree/crates.txt" && touch -d '1 minute ago' "$tree/crates/$2/out/$2"
}

# in_tree WORD..: the command; then whether rt was called.
in_tree() {
    local status
    : >"$tree/called"
    "$@"
    status=$?
    sort -u "$tree/called"
    return "$status"
}
with_rt() { in_tree env PATH="$tree/commands" "$@"; }
with_no_rt() { in_tree env PATH="$folder/commands" "$@"; }
with_unwritable() { in_tree restricted env PATH="$tree/commands" "$@"; }

# builds LAUNCHER PROGRAM TITLE STATUS OUTPUT WORD..: is it built where it has to be, and nowhere else? The small repository's own launcher
# answers the words with this output, and ends with this status where it cannot be built. Each case stands on the one before.
builds() {
    local launcher=$1 crate=$tree/crates/$2 program=$tree/crates/$2/out/$2 title=$3 status=$4 text=$5 newer gone command
    newer="$1: a source is newer than $3"
    gone="*is gone: remove *"
    shift 5
    command=("$tree/$launcher" "$@")
    prepare_tree "$launcher" "$(basename "$program")" || exit 1
    expect "$launcher.up_to_date" 0 "$text" '' with_rt "${command[@]}"
    touch "$crate/src/main.rt"
    expect "$launcher.newer_source" 0 "$text"$'\ncalled' "$newer: *" with_rt "${command[@]}"
    expect "$launcher.built_once" 0 "$text" '' with_rt "${command[@]}"
    touch "$tree/crates.txt"
    expect "$launcher.newer_list_of_crates" 0 "$text"$'\ncalled' "$newer: *" with_rt "${command[@]}"
    touch "$crate/src/main.rt"
    expect "$launcher.newer_without_rt" 0 "$text" "$newer, which runs as it was built last" with_no_rt "${command[@]}"
    touch "$crate/out/old.o" && chmod a-w "$crate/out/old.o"
    expect "$launcher.unwritable_out" 0 "$text" "$newer, which runs as it was built last" with_unwritable "${command[@]}"
    chmod u+w "$crate/out/old.o" && chmod a-w "$tree/target"
    expect "$launcher.unwritable_target" 0 "$text" "$newer, which runs as it was built last" with_unwritable "${command[@]}"
    chmod u+w "$tree/target"
    echo 1 >"$tree/status"
    expect "$launcher.failed_build" "$status" called "$newer: *rt: no proof"$'\n'"$launcher: $title could not be built" with_rt "${command[@]}"
    expect "$launcher.failed_build_again" "$status" called "$newer: *could not be built" with_rt "${command[@]}"
    rm "$program" && echo 0 >"$tree/status"
    expect "$launcher.program_gone" "$status" called "$gone" with_rt "${command[@]}"
    expect "$launcher.nothing_built" "$status" '' "$launcher: $title is not built, and *" with_no_rt "${command[@]}"
    : >"$tree/include/iscc.h" && cp "crates/${program##*/}/out/${program##*/}" "$program"
    expect "$launcher.no_version" "$status" '' "$launcher: the version is missing in include/iscc.h" "$tree/$launcher" --version
}
