# need COMMAND PACKAGE: sees to it that there is such a command; where it is missing, Debian's package of that name is
# installed. A command that cannot be had is a failure with a message, so that no check is left out in silence.
# Sourced. The list of packages is fetched once in a run: scripts that a script starts share its mark.

if [ -z "${NEED_MARK:-}" ]; then
    NEED_MARK=$(cd "$(dirname "${BASH_SOURCE[0]}")/.." && pwd)/target/need.$$
    export NEED_MARK
    rm -f "$NEED_MARK"
fi

need_install() {
    export DEBIAN_FRONTEND=noninteractive
    if [ ! -e "$NEED_MARK" ]; then
        apt-get update -qq && mkdir -p "$(dirname "$NEED_MARK")" && touch "$NEED_MARK" || return 1
    fi
    apt-get install -y -qq --no-install-recommends "$1"
}

need() {
    local command=$1 package=$2 output
    command -v "$command" >/dev/null && return
    if ! output=$(need_install "$package" 2>&1); then
        printf '%s\n' "$output" | tail -n 5 >&2
        echo "the command '$command' is missing, and Debian's package '$package' could not be installed" >&2
        return 1
    fi
    hash -r
    if ! command -v "$command" >/dev/null; then
        echo "Debian's package '$package' is installed, but brings no command '$command'" >&2
        return 1
    fi
}
