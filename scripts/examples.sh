#!/usr/bin/env bash
# Runs the built program on every example, and compares what it writes and its status: on histories by `audit`, by
# `order` and by one stream; on commands of the store by `script`, whose history and certificate are then audited. Runs
# the example of a client. Build the program first: (cd crates/ssi && rt run < stdin). The argument is its path; the
# default is crates/ssi/out/ssi.
set -u
top=$(realpath "$(dirname "$0")/..")
ssi=$(realpath "${1:-$top/crates/ssi/out/ssi}")
cd "$top" || exit 2
[ -x "$ssi" ] || { echo "no program at $ssi"; exit 2; }
passed=0 failed=0
work=$(mktemp -d)
trap 'rm -rf "$work"' EXIT

check() { # name, file with the wanted output, first line that goes with status 0, output, status
    local status=1
    [ "$(head -n 1 "$2")" = "$3" ] && status=0
    if [ "$(cat "$2")" = "$4" ] && [ "$status" = "$5" ]; then
        passed=$((passed + 1))
    else
        failed=$((failed + 1))
        echo "$1: wanted $2 and status $status, got status $5 and '$(head -n 3 <<<"$4")'"
    fi
}

while read -r history; do
    example=$(dirname "$history")
    got=$("$ssi" audit "$example/history" "$example/certificate")
    check "audit $example" "$example/verdict" yes "$got" "$?"
    got=$(cat "$example/history" "$example/certificate" | "$ssi")
    check "stream $example" "$example/verdict" yes "$got" "$?"
    got=$("$ssi" order "$example/history")
    check "order $example" "$example/order" 'serial 1' "$got" "$?"
done < <(find examples \( -path examples/store -o -path examples/isolation \) -prune -o -name history -print | sort)

same() { # name; file with the wanted text; file with the actual one
    if cmp -s "$2" "$3"; then
        passed=$((passed + 1))
    else
        failed=$((failed + 1))
        echo "$1: wanted $2, got '$(head -n 3 "$3" 2>&1)'"
    fi
}

# Each script runs in a new folder, where it leaves its two files. What `dump` replied is audited too.
echo yes >"$work/yes"
for example in examples/store/*/ examples/isolation/*/; do
    example=${example%/}
    out=$work/${example//\//_}
    mkdir "$out"
    "$ssi" script "$out/history" "$out/certificate" <"$example/commands" >"$out/replies"
    echo "$?" >"$out/status"
    for text in replies history certificate; do
        same "script $example: $text" "$example/$text" "$out/$text"
    done
    same "script $example: status" <(echo 0) "$out/status"
    "$ssi" audit "$out/history" "$out/certificate" >"$out/verdict"
    same "script $example: verdict" "$work/yes" "$out/verdict"
    awk '/^adya 2$/ { ends = 2 } ends > 0 { print } /^end$/ { ends-- }' "$out/replies" >"$out/dump"
    if [ -s "$out/dump" ]; then
        "$ssi" <"$out/dump" >"$out/verdict"
        same "dump $example: verdict" "$work/yes" "$out/verdict"
    fi
done

examples/store/client.py "$ssi" >"$work/client"
status=$?
check 'client examples/store/client.py' "$work/yes" yes "$(tail -n 1 "$work/client")" "$status"

echo "$passed passed, $failed failed"
[ "$failed" -eq 0 ]
