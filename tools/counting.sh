# Counts the checks of a script that sources this file. The counts are lines of $room/counts, so that a check in a subshell counts.
#
#     room=$(mktemp -d) || exit 1                  the caller's temporary folder
#     . tools/counting.sh
#     check NAME COMMAND...                        one check: it passes if the command's status is 0; its output is shown if not
#     add NAME COMMAND...                          a command that ends in counts of its own, 'N passed, M failed[, K skipped]'
#     skip [-n COUNT] PART NEEDS [PACKAGE...]      counts checks as skipped, and says what to install for them
#     closing                                      prints 'N passed, M failed, K skipped'; the status is 0 if M is 0
# shellcheck shell=sh
: > "${room:?the folder of the counts}/counts"

check() {
    name=$1
    shift
    if "$@" > "$room/output" 2>&1; then
        echo "1 0 0" >> "$room/counts"
    else
        cat "$room/output"
        echo "FAILED: $name"
        echo "0 1 0" >> "$room/counts"
    fi
}

# Standard error is shown, but only standard output has the counts: the last line of their form.
add() {
    name=$1
    shift
    "$@" > "$room/output"
    ended=$?
    cat "$room/output"
    counts=$(grep -aE '^[0-9]+ passed, [0-9]+ failed(, [0-9]+ skipped)?$' "$room/output" | tail -n 1)
    if [ -z "$counts" ]; then
        echo "FAILED: $name ended without its counts, with status $ended"
        counts='0 passed, 1 failed'
    fi
    listed=$(grep -ac '^skipped  ' "$room/output")
    echo "$counts" | awk -v ended=$ended -v listed="$listed" \
        '{ print $1, $3 + (ended != 0 && $3 == 0), ($5 + 0 > listed + 0 ? $5 + 0 : listed) }' >> "$room/counts"
}

skip() {
    number=1
    if [ "$1" = -n ]; then
        number=$2
        shift 2
    fi
    text="skipped  $1: $2"
    shift 2
    [ $# = 0 ] || text="$text; install: apt-get install $*"
    echo "$text"
    echo "0 0 $number" >> "$room/counts"
}

closing() {
    awk '{ passed += $1; failed += $2; skipped += $3 }
        END { print passed + 0 " passed, " failed + 0 " failed, " skipped + 0 " skipped"; exit failed > 0 }' "$room/counts"
}
