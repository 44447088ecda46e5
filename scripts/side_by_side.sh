# For `all` and `quick`: runs commands side by side, and counts what their last lines say, `N passed, M failed`. One that
# doesn't end in time, or ends with another line or status, counts as one that failed, and what it printed is shown. The
# caller sets `bound`, the seconds that each may take.
passed=0 failed=0 names=() work=$(mktemp -d)
trap 'kill $(jobs -p) $(cat "$work"/*.pid 2>/dev/null) 2>/dev/null; rm -rf "$work"' EXIT

begin() { # a name, and a command; begins it
    local name=$1
    shift
    names+=("$name")
    (
        SECONDS=0
        timeout -k 10 "$bound" "$@" >"$work/$name" 2>&1 &
        echo "$!" >"$work/$name.pid"
        wait "$!"
        echo "$? $SECONDS" >"$work/$name.end"
        rm "$work/$name.pid"
    ) &
}

told() { # a name; adds what its last line counts
    local status seconds last
    read -r status seconds <"$work/$1.end"
    last=$(tail -n 1 "$work/$1")
    if [[ $last =~ ^([0-9]+)\ passed,\ ([0-9]+)\ failed$ ]] && [ $((status == 0)) = $((BASH_REMATCH[2] == 0)) ]; then
        passed=$((passed + BASH_REMATCH[1]))
        failed=$((failed + BASH_REMATCH[2]))
        echo "$1: $last, $seconds s"
        [ "$status" -eq 0 ] && return
    else
        failed=$((failed + 1))
        echo "$1: failed, status $status, $seconds s"
    fi
    sed 's/^/    /' "$work/$1" # so that no line of it looks like the sum
}

ended() { # waits for all, and prints a line for each, how long all took, and the sum; the status is 0 if none has failed
    local name
    wait
    for name in "${names[@]}"; do
        told "$name"
    done
    echo "scripts/$(basename "$0"): $SECONDS s"
    echo "$passed passed, $failed failed"
    [ "$failed" -eq 0 ]
}
