#!/usr/bin/env bash
# Runs the built program `lists` on every history of examples/lists, made by hand or recorded, and on arguments, files
# and devices that are wrong. An EDN history has the answer that is wanted in its first line, after `; `. The whole answer has
# to be the one in the file of the same name with .stdout, if there is one: one in JSON and a text without lines have theirs
# there alone. The reason that the program gives, or the order that it writes, is then looked up in the history by
# scripts/list_witness.py. Build the program first: (cd crates/lists && rt run < stdin).
# Usage: list_examples.sh [PROGRAM], by default crates/lists/out/lists.
source "$(dirname "$0")/checks.sh" "${1:-$(dirname "$0")/../crates/lists/out/lists}"
examples=$top/examples/lists

ends() { # the arguments; prints the first line of the answer, and the status
    run "$@" | sed -n '1p;$p'
}

told() { # prints the answer of an object of JSON, with its kind
    python3 -c 'import json, sys; a = json.load(sys.stdin); print(": ".join(a[k] for k in ("answer", "kind") if k in a))'
}

for history in "$examples"/*.edn "$examples"/recorded/*.edn "$examples"/recorded/*.json; do
    answer=$(sed -n '1s/^; //p' "$history")
    [ -n "$answer" ] || answer=$(head -n 1 "$history.stdout")
    case $answer in
    serializable) status=0 ;;
    "nothing to check") status=4 ;;
    "appended twice") status=5 ;;
    *) status=1 ;;
    esac
    rm -f order
    check "$history" "out: $answer"$'\n'"status $status" "$(ends --order order "$history")"
    also=$(sed -n '2s/^; also: //p' "$history")
    [ -z "$also" ] || check "what else is in $history" "also: $also" "$(grep '^also: ' out)"
    [ ! -e "$history.stdout" ] || check "all that is said of $history" "$(cat "$history.stdout")" "$("$ssi" "$history" 2>/dev/null)"
    check "what is said of $history" holds "$("$top/scripts/list_witness.py" "$history" out order 2>&1)"
    check "$history in JSON" "$answer" "$("$ssi" --json "$history" 2>/dev/null | told)"
    check "$history from standard input" "out: $answer"$'\n'"status $status" "$(ends <"$history")"
done

# A read that has an element of its own transaction too early: it is appended only afterwards, or it is there twice. The
# element begins what was read of the key so far, or another read has shown it before, with all that its transaction
# appends or with more.
said() { # the steps of the transactions, each of which committed; prints the answer
    local place=0
    for steps in "$@"; do
        echo "{:type :ok, :f :txn, :value [$steps], :process $place, :index $place}"
        place=$((place + 1))
    done | "$ssi" 2>/dev/null
}
check 'what is appended after the read' \
    $'not serializable: future\nT1 (index 0) read key 0 as [1], before it appended 1 itself' \
    "$(said '[:r 0 [1]] [:append 0 1]')"
check 'what is appended before the read, twice in it' \
    $'not serializable: duplicate elements\nT1 (index 0) read key 0 as [1 1], with 1 twice' \
    "$(said '[:append 0 1] [:r 0 [1 1]]')"
check 'what is appended after a read, once another read has shown it' \
    $'not serializable: future\nT1 (index 1) read key 0 as [1], before it appended 1 itself' \
    "$(said '[:r 0 [1]]' '[:r 0 [1]] [:append 0 1]')"
check 'what is appended before a read, twice in it, once another read has shown it' \
    $'not serializable: duplicate elements\nT1 (index 1) read key 0 as [1 1], with 1 twice' \
    "$(said '[:r 0 [1]]' '[:append 0 1] [:r 0 [1 1]]')"
check 'a part of what is appended after a read' \
    $'not serializable: future\nT1 (index 1) read key 0 as [1], before it appended 1 itself' \
    "$(said '[:r 0 [1 2]]' '[:r 0 [1]] [:append 0 1] [:append 0 2]')"
check 'a part of what is appended before a read and after it, twice in it' \
    $'not serializable: duplicate elements\nT1 (index 1) read key 0 as [1 1], with 1 twice' \
    "$(said '[:r 0 [1 2]]' '[:append 0 1] [:r 0 [1 1]] [:append 0 2]')"

# The first transaction shows by its own read that its element comes before that of the third, and the third one shows the
# same of the first by its own.
check 'a cycle of write dependencies that own reads alone show' 'not serializable: G0' \
    "$(said '[:append 1 4] [:r 1 [4]] [:append 0 5]' '[:r 1 [4]] [:append 1 6] [:append 0 7]' \
        '[:append 1 1] [:append 0 2] [:r 0 [2]] [:append 0 3]' | head -n 1)"

# Each of 1,200 transactions saw the one before it, and the last one missed what the first one appended to x, but saw what it
# appended to y. So there is a cycle through all of them, and one of two links.
python3 - >long.edn <<'end'
print("{:type :ok, :f :txn, :value [[:append :x 1] [:append :y 1] [:append 0 1]], :process 0, :index 0}")
for i in range(1, 1199):
    print("{:type :ok, :f :txn, :value [[:r %d [1]] [:append %d 1]], :process 0, :index %d}" % (i - 1, i, i))
print("{:type :ok, :f :txn, :value [[:r 1198 [1]] [:r :x []] [:r :y [1]]], :process 0, :index 1199}")
end
check 'the shortest cycle behind a long one' $'not serializable: G-single
T1 (index 1199) read key :x as [], and T2 (index 0) appended 1 to key :x: T1 before T2
T2 (index 0) appended 1 to key :y, and T1 (index 1199) read key :y as [1]: T2 before T1' \
    "$("$ssi" long.edn 2>/dev/null)"

# The form of a text may be named.
check 'a JSON history that is said to be one' 'status 0' \
    "$(run --format json "$examples/recorded/mariadb-serializable.json" | tail -n 1)"

# In JSON words and keys may have the colon of a keyword, and the number of a process may be a string.
cat >colons.json <<'END'
{":type": ":ok", ":f": ":txn", ":value": [[":r", "x", [1]], [":r", "y", []]], ":process": "1", ":index": 1}
{":type": ":ok", ":f": ":txn", ":value": [[":append", "x", 1], [":append", "y", 1]], ":process": "0", ":index": 0}
{":type": ":info", ":f": ":start", ":process": "nemesis"}
END
check 'JSON with colons, and with a process that is a string' 'out: not serializable: G-single'$'\nstatus 1' \
    "$(ends colons.json)"

# All operations may be in an array, or in one that an object has as its history.
sed 's/$/,/; $s/,$//' colons.json | (echo '[' && cat && echo ']') >array.json
(printf '{"history":\n' && cat array.json && echo ', "name": "colons"}') >object.json
for history in array.json object.json; do
    check "JSON as in $history" "$("$ssi" colons.json 2>/dev/null)" "$("$ssi" "$history" 2>/dev/null)"
done

# All operations of EDN may be in a list, as Clojure prints a sequence.
for history in "$examples/write-skew.edn" "$examples/nothing.edn" "$examples/unknown-outcome.edn"; do
    (echo '(' && cat "$history" && echo ')') >listed
    check "$history in a list" "$("$ssi" "$history" 2>&1)" "$("$ssi" listed 2>&1)"
done

# In a map with a namespace, the keys have it that have none, and those with `_` have none.
sed 's/^{/#:jepsen{/' "$examples/write-skew.edn" >within.edn
check 'fields with the namespace of their map' \
    $'nothing to check\nno transaction committed: 0 have an unknown outcome, and 0 failed\n2 operations were passed over because their `:f` isn\'t `:txn`' \
    "$("$ssi" within.edn 2>/dev/null)"
sed -i -E 's/:(type|f|value|process|index) /:_\/\1 /g' within.edn
check 'fields without it' "$("$ssi" "$examples/write-skew.edn" 2>/dev/null)" "$("$ssi" within.edn 2>/dev/null)"

# A byte order mark at the front is passed over.
for history in "$examples/write-skew.edn" colons.json object.json; do
    printf '\xef\xbb\xbf' | cat - "$history" >marked
    check "$history behind a byte order mark" "$("$ssi" "$history" 2>/dev/null)" "$("$ssi" marked 2>/dev/null)"
done

# The two committed transactions of the stale read in the only order that explains it, by their indexes.
run --order order "$examples/stale-read.edn" >answer
check 'the order of stale-read' $'3\n1' "$(cat order)"

# The whole of an answer in JSON.
check 'the order of stale-read in JSON' \
    '{"answer":"serializable","order":[3,1],"rests_on":{"elements":0,"fail":0,"info":0,"ok":2,"passed_over":{"f":0,"process":0},"reads":1}}' \
    "$("$ssi" --json "$examples/stale-read.edn" 2>err)"
check 'what the order of stale-read rests on' \
    'lists: rests on 2 transactions ok, 0 info, 0 fail; 1 reads of 0 elements; passed over 0 operations of another :f, 0 of another :process' "$(cat err)"
check 'no order if there is nothing to check' '' "$("$ssi" --order none "$examples/nothing.edn" >out 2>&1; ls none 2>/dev/null)"
check 'no drawing without a cycle' '' "$("$ssi" --dot none "$examples/future.edn" >out 2>&1; ls none 2>/dev/null)"
check 'a folder for the drawing' 'status 3' "$(run --dot folder "$examples/read-skew.edn" | tail -n 1)"
check 'the cycle of read-skew for Graphviz' \
    $'digraph cycle {\n  "T1 (index 1)" -> "T2 (index 0)" [label="rw :x"];\n  "T2 (index 0)" -> "T1 (index 1)" [label="wr :y"];\n}' \
    "$("$ssi" --dot dot "$examples/read-skew.edn" >/dev/null 2>&1; cat dot)"
check 'the cycle of read-skew in JSON' '0 before 1: wr, 1 before 0: rw' \
    "$("$ssi" --json "$examples/read-skew.edn" | python3 -c 'import json, sys
print(", ".join(sorted("%(from)d before %(to)d: %(kind)s" % link for link in json.load(sys.stdin)["cycle"])))')"

# tools/explain.py says the same of each history, and draws the cycles.
check 'what tools/explain.py says and draws' '0 failed' "$("$top/scripts/explanations.py" --lists "$ssi" | sed 's/^[1-9][0-9]* passed, //')"

# What is said of a text that is that of no history: where it is at fault, and what stands there.
says() { # a text; prints what is said of it on standard error
    printf '%b' "$1" >wrong
    run wrong | sed -n 's/^err: lists: //p'
}
fine='{:type :ok, :f :txn, :value [[:r 1 []]], :process 0}'
column() { # a line, and a word of it; prints the column of the word
    awk -v line="$1" -v word="$2" 'BEGIN { print index(line, word) }'
}
bad='{:type :fail, :f :txn, :value [[:r 1 nil]], :process 0, :exception [0x11g 1]}'
check 'a word that is none' "line 2, column $(column "$bad" 0x11g): \`0x11g\`: no form is written so; in :exception" "$(says "$fine\n$bad\n")"
bad='{:type :ok, :f :txn, :value [[:r 1 []]}, :process 0}'
check 'a bracket that closes nothing' "line 1, column $(column "$bad" '}'): \`}\`: a bracket that closes nothing; in :value" "$(says "$bad")"
check 'no type' "line 1: an operation has a \`:type\`: \`:invoke\`, \`:ok\`, \`:fail\` or \`:info\`" "$(says '{:process 0, :f :txn}')"
bad='{:process 0, :f :txn, :type :done}'
check 'another type' "line 1, column $(column "$bad" :done): \`:done}\`: an operation has a \`:type\`: \`:invoke\`, \`:ok\`, \`:fail\` or \`:info\`" "$(says "$bad")"
check 'an element of a list' 'element 1: an operation is a map' "$(says "($fine 7)\n")"
check 'a list after an operation' 'element 0: an operation has a `:type`: `:invoke`, `:ok`, `:fail` or `:info`' \
    "$(says "$fine\n({:process 0, :f :txn})\n")"
check 'a text that is cut off' 'line 2: the text ends within a form' "$(says "$fine\n{:type :ok")"
check 'a history.txt' $'line 1, column 1: `0 :invoke :txn [[:append 1 1]]`: an operation is a map\nthis is a history.txt: the history is in history.edn beside it' \
    "$(says '0\t:invoke\t:txn\t[[:append 1 1]]\n')"
check 'a file that gzip made' 'the file is compressed by gzip: unpack it first' "$(says '\x1f\x8b\x08\x00\n' | tail -n 1)"
check 'a test.jepsen' 'this is a test.jepsen: the history is in history.edn beside it' "$(says 'JEPSEN\x00\x01\n' | tail -n 1)"
check 'a text from standard input' "line 1, column 1: \`7\`: an operation is a map" "$(echo 7 >wrong; run <wrong | sed -n 's/^err: lists: //p')"
check 'a text from a pipe' 'line 1: an operation is a map' "$(echo 7 | run | sed -n 's/^err: lists: //p')"
check 'the reason of a missing file' 'read fault: missing: there is no such file' "$(run missing | sed -n 's/^err: lists: //p')"

# Arguments, files and devices.
check 'an unknown option' 'status 2' "$(run --foo | tail -n 1)"
check 'two files' 'status 2' "$(run a b | tail -n 1)"
check 'a form that is none' 'status 2' "$(run --format xml "$examples/serial.edn" | tail -n 1)"
check 'a text of the other form' 'status 2' "$(run --format json "$examples/serial.edn" | tail -n 1)"
check 'a file that is missing' 'status 3' "$(run missing | tail -n 1)"
check 'a folder' 'status 3' "$(run folder | tail -n 1)"
check 'a full device' 'status 3' "$(timeout 60 "$ssi" "$examples/serial.edn" >/dev/full 2>err; echo "status $?")"
check '--help' 'status 0' "$(run --help | tail -n 1)"
check '--version' "out: lists 1.0.0 ($(rt version | grep -o 'logic [0-9a-f]*'))"$'\nstatus 0' "$(run --version)"
report
