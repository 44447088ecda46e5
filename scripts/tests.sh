#!/usr/bin/env bash
# Gives the program of a crate of tests the lines of its file `stdin`, and compares what it writes with its file `stdout`,
# each line of which is a check. It proves nothing: `rt try` builds the program, which then gets all lines. If the path of
# the program is given, each line has a run of its own, and all run side by side.
#
# Usage: tests.sh CRATE [PROGRAM]. The last line is `N passed, M failed`.
set -u
program=${2:+$(realpath "$2")}
cd "$(dirname "$0")/../crates/$1" || exit 2
work=$(mktemp -d)
trap 'rm -rf "$work"' EXIT
if [ -z "$program" ]; then
    given=()
    while read -r file; do
        given+=(--data "$file=data/$file")
    done < <([ ! -d data ] || (cd data && find . -type f))
    input=stdin
    [ -e stdin ] || input=/dev/null
    rt try --steps 1 --seconds 900 "${given[@]}" <"$input" >"$work/written" 2>"$work/said" ||
        { echo "status $?"; cat "$work/said"; } >"$work/failed"
else
    runs=()
    while read -r line; do
        run=$work/${#runs[@]}
        runs+=("$run.written")
        cp -r data "$run"
        {
            cd "$run" && "$program" <<<"$line" >"$run.written" 2>"$run.said" ||
                { echo "$line: status $?"; cat "$run.said"; } >"$run.failed"
        } &
    done <stdin
    wait
    cat "${runs[@]}" >"$work/written"
fi

cat "$work"/*failed 2>/dev/null
diff stdout "$work/written" >"$work/differ"
head -n 20 "$work/differ"
wanted=$(wc -l <stdout) lacks=$(grep -c '^<' "$work/differ") others=$(grep -c '^>' "$work/differ")
faults=$(find "$work" -maxdepth 1 -name '*failed' | wc -l)
failed=$(((lacks > others ? lacks : others) + faults))
echo "$((wanted - lacks)) passed, $failed failed"
[ "$failed" -eq 0 ]
