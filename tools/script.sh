# What the scripts have in common. A script sets `name`, `help` and `root`, and then sources this file.

# One clear line, status 2, and nothing is proved.
refuse() {
    echo "$name: $*" >&2
    exit 2
}

# --help, by itself or first, says what the script does.
help_if_asked() {
    case ${1-} in
    -h | --help)
        printf '%s\n' "$help"
        exit 0
        ;;
    esac
}

# No word is left that the script does not know.
no_more() {
    [ $# -eq 0 ] || refuse "unknown argument '$1' (--help says what there is)"
}

needs() {
    for tool; do
        command -v "$tool" > /dev/null 2>&1 || refuse "'$tool' is needed and is not on the PATH"
    done
}

# A number from 1 to the last word's.
number() { # WHAT NUMBER MOST
    case $2 in
    '' | 0* | *[!0-9]* | ??????????*) refuse "$1 is a number from 1 to $3, not '$2'" ;;
    esac
    { [ "$2" -ge 1 ] && [ "$2" -le "$3" ]; } || refuse "$1 is a number from 1 to $3, not '$2'"
}

# The toolchain's folder.
kit_home() {
    if [ -n "${RATTLE_HOME:-}" ]; then
        (CDPATH='' cd "$RATTLE_HOME" 2> /dev/null && pwd) || printf '%s\n' "$RATTLE_HOME"
    else
        guide=$(rt doc) && dirname "$guide"
    fi
}

# Runs a command of `rt`, says each crate as its turn comes, and stops with the whole log if one is not proved.
proving() { # LOG WORDS..
    log=$1
    shift
    mkdir -p "$(dirname "$log")"
    rm -f "$log.passed"
    { "$@" 2>&1 && : > "$log.passed"; } | tee "$log" | sed -un 's/^rt: chose --jobs [0-9]* for \(.*\)$/  proving \1/p'
    if [ ! -e "$log.passed" ]; then
        cat "$log" >&2
        echo "$name: not everything was proved; the lines above are its log" >&2
        exit 1
    fi
}

# Proves and builds a program: crates/NAME/out/NAME. The run that this takes is on no input.
built() { # LOG NAME
    proving "$1" once "$2"
}
once() { # NAME
    (cd "$root/crates/$1" && rt run < /dev/null)
}

# A script that is stopped still removes what it made for the time being.
trap 'exit 129' HUP
trap 'exit 130' INT
trap 'exit 143' TERM
