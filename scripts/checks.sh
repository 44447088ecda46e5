# For the scripts beside it: sets `top` and `ssi`, counts checks, and runs the program in a new folder. The caller's first
# argument is the program's path, by default crates/ssi/out/ssi.
set -u
top=$(realpath "$(dirname "${BASH_SOURCE[0]}")/..")
ssi=$(realpath "${1:-$top/crates/ssi/out/ssi}")
[ -x "$ssi" ] || { echo "no program at $ssi"; exit 2; }
passed=0 failed=0
work=$(mktemp -d)
trap 'rm -rf "$work"' EXIT
cd "$work" || exit
mkdir folder
mkfifo unread
exec 9<>unread 8>unread 9<&- # writing to 8 fails: it is a pipe whose reader has gone

check() { # the name of the case; the wanted text; the actual text
    if [ "$2" = "$3" ]; then
        passed=$((passed + 1))
    else
        failed=$((failed + 1))
        printf '%s\n' "$1: wanted" "$2" 'got' "$3"
    fi
}

run() { # the arguments; prints the lines of standard output, those of standard error, and the status
    timeout 60 "$ssi" "$@" >out 2>err
    local status=$?
    sed 's/^/out: /' out
    sed 's/^/err: /' err
    echo "status $status"
}

report() { # prints how many checks have passed and failed; the status is 0 if none has failed
    echo "$passed passed, $failed failed"
    [ "$failed" -eq 0 ]
}
