# Counting over parts: a part either ends in a line 'N passed, M failed', or is one check by its exit status. Sourced.

passed=0
failed=0
# The command that runs a failed part again, where there is one.
again=

# excerpt: what comes in, without the middle where it is long.
excerpt() {
    local lines
    mapfile -t lines
    if [ "${#lines[@]}" -le 80 ]; then
        printf '%s\n' "${lines[@]}"
    else
        printf '%s\n' "${lines[@]:0:40}" ".. $((${#lines[@]} - 80)) lines left out .." "${lines[@]: -40}"
    fi
}

say_again() {
    [ -z "$again" ] || echo "run again: $again"
}

# no_check NAME: what ran no check has failed.
no_check() {
    echo "FAILED $1: no check was run"
    say_again
    failed=$((failed + 1))
}

# step NAME COMMAND..: something that must be done before the checks; counted only where it fails.
step() {
    local name=$1 output
    shift
    if output=$("$@" 2>&1); then
        echo "built $name"
    else
        echo "FAILED build of $name"
        excerpt <<<"$output"
        say_again
        failed=$((failed + 1))
    fi
}

# part NAME COMMAND..: runs it, shows its output and adds its counts.
part() {
    local name=$1 output status count good bad
    shift
    output=$("$@" 2>&1)
    status=$?
    count=$(tail -n 1 <<<"$output" | grep -E '^[0-9]+ passed, [0-9]+ failed$')
    if [ -n "$count" ]; then
        echo "== $name"
        echo "$output"
        good=${count%% *}
        passed=$((passed + good))
        count=${count#*, }
        bad=${count%% *}
        if [ "$((good + bad))" -eq 0 ]; then
            echo "FAILED $name: no check was run"
            bad=1
        elif [ "$status" -ne 0 ] && [ "$bad" -eq 0 ]; then
            echo "FAILED $name: status $status"
            bad=1
        fi
    elif [ "$status" -eq 0 ]; then
        echo "ok $name"
        passed=$((passed + 1))
        bad=0
    else
        echo "FAILED $name: status $status"
        excerpt <<<"$output"
        bad=1
    fi
    failed=$((failed + bad))
    [ "$bad" -eq 0 ] || say_again
}

# begin NAME COMMAND..: starts a command beside the others, in a process group of its own, so that all of it can be ended.
declare -A begun=()
begin() {
    local name=$1
    shift
    set -m
    "$@" </dev/null >"$built/$name.log" 2>&1 &
    begun[$name]=$!
    set +m
}

# await NAME: waits for it. Then `replay NAME` prints what it printed, with its status.
declare -A ended=()
await() {
    wait "${begun[$1]}"
    ended[$1]=$?
    unset "begun[$1]"
}

replay() {
    cat "$built/$1.log"
    return "${ended[$1]}"
}

end_begun() {
    local pid
    for pid in "${begun[@]}"; do kill -- "-$pid" 2>/dev/null; done
}

# Prints the sums as the last line; its status is the verdict.
finish() {
    echo "$passed passed, $failed failed"
    [ "$failed" -eq 0 ] && [ "$passed" -gt 0 ]
}
