# What the steps share: the tools they need, what they leave out, and the library.

# Ends the step with the name of each tool that is not here.
need() {
    local tool missing=
    for tool in "$@"; do
        command -v "$tool" > /dev/null || missing+=" $tool"
    done
    if [ -n "$missing" ]; then
        echo "not on the path:$missing"
        exit 1
    fi
}

# Ends the step if grep finds such a line in a file that is not empty, or cannot look.
none() { # FILE GREP-WORDS
    local file=$1 status=0
    shift
    [ -s "$file" ] && grep "$@" "$file" || status=$?
    if [ "$status" -ne 1 ] || [ ! -s "$file" ]; then
        echo "$file: a line that may not be there, or none at all"
        exit 1
    fi
}

# Tries to install the package of a tool where that is not here.
get() { # TOOL PACKAGE
    command -v "$1" > /dev/null && return
    echo "$1 is not here; apt-get is asked for $2"
    {
        DEBIAN_FRONTEND=noninteractive timeout 120 apt-get update -qq
        DEBIAN_FRONTEND=noninteractive timeout 300 apt-get install -y -qq "$2"
    } > /dev/null 2>&1 < /dev/null || true
}

# Says that a part is left out, and why; ./test counts these lines and prints them before its sum.
skip() {
    echo "SKIPPED: $*"
    [ -z "${HUB_SKIPS:-}" ] || echo "$*" >> "$HUB_SKIPS"
}

# Builds the library, unless ./test has done so.
library() {
    [ -n "${HUB_BUILT:-}" ] || {
        need rt
        "$(dirname "${BASH_SOURCE[0]}")/../../tools/library"
    }
}
