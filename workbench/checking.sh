# What workbench/check and bench/check share: each sources it after it has set `checked`, its own name in what it says.
#
# The last line that they print is `N passed, M failed`; the status is 0 where something passed and nothing failed.
unset PYTHONPATH PYTHONHOME PYTHONSTARTUP
export PYTHONDONTWRITEBYTECODE=1
python=/usr/bin/python3
passed=0
failed=0

end() {
    echo "$passed passed, $failed failed"
    [ "$failed" -eq 0 ] && [ "$passed" -gt 0 ]
    exit
}

# stop SENTENCE: nothing could be checked.
stop() {
    echo "$checked: $1" >&2
    failed=1
    end
}

# take_program WORDS..: the one word that there is has to name a program; `program` is its path.
take_program() {
    [ $# -eq 1 ] || stop "usage: $checked PROGRAM"
    if [ ! -f "$1" ] || [ ! -x "$1" ]; then
        stop "$1 is no program that can be run"
    fi
    program=$(realpath "$1")
}

# missing FILE: the packages of the file that aren't installed.
missing() {
    sed -n 's/^\([a-z][a-z0-9-]*\).*/\1/p' "$1" | while read -r name; do
        dpkg-query -W -f '${Status}\n' "$name" 2> /dev/null | grep -q '^install ok installed' || echo "$name"
    done | paste -sd ' '
}

# install FILE: installs the packages of the file that are missing, where it runs as root on Debian; elsewhere it names them.
install() {
    command -v dpkg-query > /dev/null || stop "this is no Debian: it needs the packages of $(dirname "$checked")/$1"
    wanted=$(missing "$1")
    [ -n "$wanted" ] || return 0
    [ "$(id -u)" -eq 0 ] || stop "there are no packages $wanted, and no right to install them: apt-get install $wanted"
    export DEBIAN_FRONTEND=noninteractive
    # shellcheck disable=SC2086
    { apt-get -q update && apt-get -q install -y --no-install-recommends $wanted; } > /dev/null 2>&1
    wanted=$(missing "$1")
    [ -z "$wanted" ] || stop "the packages $wanted could not be installed"
}

# try NAME WORDS..: one check, told by its name where it fails.
try() {
    name=$1
    shift
    if "$@"; then
        passed=$((passed + 1))
    else
        echo "$checked: $name fails" >&2
        failed=$((failed + 1))
    fi
}

# add PASSED FAILED: so many more.
add() {
    passed=$((passed + $1))
    failed=$((failed + $2))
}

# tests WORDS..: what pytest finds, as many tests at once as there are processors for this, each taken by the first that is free;
# then those that are marked `alone`, one after the other. Each test counts.
tests() {
    reports=$(mktemp -d) || exit 1
    set -- -q -p no:cacheprovider "$@"
    "$python" -B -m pytest --junitxml="$reports/together" -m "not alone" -n "$(nproc)" --dist loadgroup "$@"
    "$python" -B -m pytest --junitxml="$reports/alone" -m alone "$@"
    # shellcheck disable=SC2046
    add $("$python" - "$reports/together" "$reports/alone" << 'END'
import sys, xml.etree.ElementTree as tree
try:
    suites = [suite for path in sys.argv[1:] for suite in tree.parse(path).getroot().iter("testsuite")]
    total, bad, skipped = (sum(int(suite.get(key, 0)) for suite in suites for key in keys) for keys in (["tests"], ["failures", "errors"], ["skipped"]))
    print(total - bad - skipped, bad or int(total == 0))
except (OSError, tree.ParseError):
    print(0, 1)
END
    )
    rm -rf "$reports"
}
