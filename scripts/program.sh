#!/usr/bin/env bash
# Runs the built program on every worked example, with wrong arguments, for help, and on files and streams that fail.
# Compares its standard output, its standard error and its exit status with what is wanted. Build it first:
# (cd crates/ssi && rt run < stdin). Usage: program.sh [PROGRAM], by default crates/ssi/out/ssi.
source "$(dirname "$0")/checks.sh"
examples=$top/crates/adya_tests/data
sample=$top/crates/ssi/stdin

streams() { # the arguments; prints which of the two streams were written to, and the status
    run "$@" | sed -E 's/^(out|err): .*/\1/' | uniq
}

answer() { # a file and a status; prints what `run` does if the file is the standard output
    sed 's/^/out: /' "$1"
    echo "status $2"
}

# Worked examples. A history with text after its first line `end` can't be given in one stream: there that text would
# belong to the certificate.
for example in "$examples"/audit/*/; do
    [ "$(cat "$example/verdict")" = yes ] && status=0 || status=1
    wanted=$(answer "$example/verdict" "$status")
    check "audit $example" "$wanted" "$(run audit "$example/history" "$example/certificate")"
    if [ -z "$(sed '1,/^end$/d' "$example/history")" ]; then
        check "$example" "$wanted" "$(cat "$example/history" "$example/certificate" | run)"
    fi
done
for example in "$examples"/order/*/; do
    [ "$(head -n 1 "$example/answer")" = 'serial 1' ] && status=0 || status=1
    check "order $example" "$(answer "$example/answer" "$status")" "$(run order "$example/history")"
done

# Arguments.
wrong=$'err\nstatus 2'
check 'audit' "$wrong" "$(streams audit)"
check 'audit and one file' "$wrong" "$(streams audit h)"
check 'audit and three files' "$wrong" "$(streams audit h c d)"
check 'order' "$wrong" "$(streams order)"
check 'order and two files' "$wrong" "$(streams order h c)"
check 'script' "$wrong" "$(streams script <"$sample")"
check 'script and one file' "$wrong" "$(streams script h <"$sample")"
check 'script and three files' "$wrong" "$(streams script h c d <"$sample")"
check 'serve' "$wrong" "$(streams serve)"
check 'serve and two paths' "$wrong" "$(streams serve s h)"
check 'serve and four paths' "$wrong" "$(streams serve s h c d)"
check 'an unknown command' "$wrong" "$(streams foo <"$sample")"
check 'an empty argument' "$wrong" "$(streams '' <"$sample")"
check 'an unknown option' "$wrong" "$(streams --foo <"$sample")"
check 'an argument that is not UTF-8' "$wrong" "$(streams $'\xff' <"$sample")"
check 'a path that is not UTF-8' "$wrong" "$(streams order $'\xff')"
help=$'out\nstatus 0'
check '--help' "$help" "$(streams --help)"
check 'help' "$help" "$(streams help)"
check 'audit --help' "$help" "$(streams audit --help)"
check 'help order' "$help" "$(streams help order)"
check 'script --help' "$help" "$(streams script --help)"
check 'help serve' "$help" "$(streams help serve)"
logic=$(rt version | grep -o 'logic [0-9a-f]*')
check '--version' "out: ssi 1.0.0 ($logic)"$'\nstatus 0' "$(run --version)"
"$ssi" --help >text
for text in audit order script serve 'Without a command' docs/formats.md; do
    check "--help mentions $text" found "$(grep -q -e "$text" text && echo found)"
done
for command in audit order script serve; do
    "$ssi" "$command" --help >text
    for text in 'HISTORY' docs/formats.md; do
        check "$command --help mentions $text" found "$(grep -q -e "$text" text && echo found)"
    done
done

# Of a text that is no history a terminal shows why; tools/explain.py says the same. Of a certificate the same way.
cat >terminal.py <<'END'
"""Runs a program with a terminal as standard error, and prints what that shows."""
import os, pty, subprocess, sys

shown, screen = pty.openpty()
subprocess.run(sys.argv[1:], stdout=subprocess.DEVNULL, stderr=screen, timeout=60)
os.close(screen)
text = b""
try:
    while piece := os.read(shown, 4096):
        text += piece
except OSError:
    pass
print(text.replace(b"\r\n", b"\n").decode(), end="")
END
echo 'serial 1
end' >c
for case in "$top"/tools/cases/{syntax-*,cut-off,leading-zero}/; do
    wanted=$(sed 's/^The text is no history: \(.*\)\.$/\1/' "$case/explanation")
    check "a terminal, audit $case" "ssi: $case/history: $wanted" "$(python3 terminal.py "$ssi" audit "$case/history" c)"
    check "a terminal, order $case" "ssi: $case/history: $wanted" "$(python3 terminal.py "$ssi" order "$case/history")"
done
sed '/^end$/q' "$sample" >h
for fault in 'serial 2:line 1, byte 1: the first line is `serial 1`' \
    'serial 1;01:line 2, byte 1: a transaction is a number from 1 to 4294967295, without leading zeros' \
    'serial 1;1,2:line 2, byte 2: the line ends before this' 'serial 1;1:line 3: the text ends before the line `end`'; do
    tr ';' '\n' <<<"${fault%%:*}" >faulty
    check "a terminal, ${fault%%:*}" "ssi: faulty: ${fault#*:}" "$(python3 terminal.py "$ssi" audit h faulty)"
done
sed '1,/^end$/d' "$sample" >c
check 'a terminal, a yes' '' "$(python3 terminal.py "$ssi" audit h c)"
check 'a terminal, a pipe' '' "$(cat "$top/tools/cases/leading-zero/history" | python3 terminal.py "$ssi" order /dev/stdin)"
check 'no terminal' $'out: no 1 syntax history 2\nstatus 1' "$(run audit "$top/tools/cases/leading-zero/history" c)"
rm -f c h faulty

# Files.
sed '/^end$/q' "$sample" >h
sed '1,/^end$/d' "$sample" >c
cp h ./-h
cp c ./-c
mkfifo pipe
answer=$'out: yes\nstatus 0'
check 'two files' "$answer" "$(run audit h c)"
check 'paths that begin with a hyphen, after --' "$answer" "$(run audit -- -h -c)"
check 'paths that begin with a hyphen, by their folder' "$answer" "$(run audit ./-h ./-c)"
check 'a path that is taken for options' "$wrong" "$(streams order -x)"
cp h ./-x
check 'a file does not change that' "$wrong" "$(streams order -x)"
ordered=$(run order h)
check 'a history to order that begins with a hyphen, after --' "$ordered" "$(run order -- -x)"
check 'a history to order that begins with a hyphen, by its folder' "$ordered" "$(run order ./-x)"
check 'a pipe as a file' "$answer" "$(cat c >pipe & run audit h pipe)"
printf x >>h
check 'a byte after the history' $'out: no 1 syntax history 9\nstatus 1' "$(run audit h c)"
check 'a byte after the history, in one stream' $'out: no 1 syntax serial 1\nstatus 1' "$(cat h c | run)"
nowhere=$'err: ssi: read fault: nowhere\nstatus 3'
check 'no history' "$nowhere" "$(run audit nowhere c)"
check 'no certificate' "$nowhere" "$(run audit h nowhere)"
check 'neither file: the history is opened first' "$nowhere" "$(run audit nowhere neither)"
check 'no history to order' "$nowhere" "$(run order nowhere)"
check 'an empty path' $'err: ssi: read fault: \nstatus 3' "$(run order '')"
check 'an empty file as history' $'out: no 1 syntax history 1\nstatus 1' "$(run audit /dev/null c)"
check 'an empty file as certificate' $'out: no 1 syntax serial 1\nstatus 1' "$(run audit -- -h /dev/null)"
check 'an empty file to order' $'out: no 1 syntax history 1\nstatus 1' "$(run order /dev/null)"
check 'a file in place of a folder' $'err: ssi: read fault: h/h\nstatus 3' "$(run audit h/h c)"
folder=$'err: ssi: read fault: folder\nstatus 3'
check 'a folder as history' "$folder" "$(run audit folder c)"
check 'a folder as certificate' "$folder" "$(run audit -- -h folder)"
check 'a folder to order' "$folder" "$(run order folder)"

# The greatest number in each place of a number, and one more.
great() { # four numbers: of the transaction, of its write, in the order and in the certificate; prints the verdict
    printf '%s\n' 'adya 1' "w$1(x.$1:$2,4294967295)" "c$1" "[x:$3]" '{x,4294967295}' end 'serial 1' "$4" end | run
}
most=4294967295
check 'the greatest numbers' "$answer" "$(great $most 1 $most $most)"
check 'a transaction above them' $'out: no 1 syntax history 2\nstatus 1' "$(great 4294967296 1 $most $most)"
check 'a write above them' $'out: no 1 syntax history 2\nstatus 1' "$(great $most $most $most $most)"
check 'an installed version above them' $'out: no 1 syntax history 4\nstatus 1' "$(great $most 1 4294967296 $most)"
check 'a transaction of the certificate above them' $'out: no 1 syntax serial 2\nstatus 1' "$(great $most 1 $most 4294967296)"

# A first line without end. The bound on memory ends a program that keeps all of it.
endless() { # as `run`
    (ulimit -v "${kibibytes:-1000000}"; run "$@")
}
history=$'out: no 1 syntax history 1\nstatus 1'
certificate=$'out: no 1 syntax serial 1\nstatus 1'
check 'a history whose first line has no end' "$history" "$(endless audit -- /dev/zero -c)"
check 'a certificate whose first line has no end' "$certificate" "$(endless audit -- -h /dev/zero)"
check 'standard input whose first line has no end' "$history" "$(endless </dev/zero)"
check 'standard input whose certificate has no end' "$certificate" "$(cat -- -h /dev/zero | endless)"
check 'a history to order whose first line has no end' "$history" "$(endless order /dev/zero)"

# A scan of a hundred million bytes. Nobody wrote the versions that it lists.
value=$(printf 'v%.0s' {1..60})
entries() { yes "k.4294967295:65535,$value" | head -n 1260000 | paste -sd ';' | tr -d '\n'; }
scan() { (printf 'adya 1\ns1(a,z;'; entries; printf '%s\n' "$1" c1 end 'serial 1' 1 end) | endless; }
check 'a scan of a hundred million bytes' $'out: no 2 malformed 2 M3\nstatus 1' "$(scan ')')"
check 'a scan that is too long for the memory' $'err: ssi: memory\nstatus 3' "$(kibibytes=100000 scan ')')"
check 'a scan of a hundred million bytes that has no end' $'out: no 1 syntax history 2\nstatus 1' "$(scan '')"

# A scan that lists as many versions as its row in the list of events has room for, and one that lists one more.
wide() { # how many keys transaction 1 writes and 2 scans, and the value that the scan lists last; prints the verdict
    seq -f 'k%06.0f' "$1" >keys
    {
        echo 'adya 1'
        sed 's/.*/w1(&.1:1,v)/' keys
        printf 'c1\ns2(a,z'
        sed "s/.*/;&.1:1,v/; \$s/v\$/$2/" keys | tr -d '\n'
        printf ')\nc2\n'
        sed 's/.*/[&:1]/' keys
        sed 's/.*/{&,v}/' keys
        printf '%s\n' end 'serial 1' 1 2 end
    } | run
}
for size in 65535 65536; do
    check "a scan of $size versions" "$answer" "$(wide $size v)"
    check "a scan of $size versions, the last of which nobody wrote" "out: no 2 malformed $((size + 3)) M3
status 1" "$(wide $size w)"
done

# Standard input and output.
check 'empty input' $'out: no 1 syntax history 1\nstatus 1' "$(run </dev/null)"
check 'a folder as standard input' $'err: ssi: read fault: stdin\nstatus 3' "$(run <folder)"
check 'closed standard input' $'err: ssi: read fault: stdin\nstatus 3' "$(run <&-)"
full=$'ssi: write fault: stdout\nstatus 3'
check 'a full device, no arguments' "$full" "$("$ssi" <"$sample" 2>&1 >/dev/full; echo "status $?")"
check 'a full device, audit' "$full" "$("$ssi" audit -- -h -c 2>&1 >/dev/full; echo "status $?")"
check 'a full device, order' "$full" "$("$ssi" order "$examples/order/empty/history" 2>&1 >/dev/full; echo "status $?")"
check 'a full device, help' "$full" "$("$ssi" --help 2>&1 >/dev/full; echo "status $?")"
check 'closed standard output' "$full" "$("$ssi" <"$sample" 2>&1 >&-; echo "status $?")"
check 'closed standard output, files' "$full" "$("$ssi" audit -- -h -c 2>&1 >&-; echo "status $?")"
check 'a reader that has gone, no arguments' "$full" "$("$ssi" <"$sample" 2>&1 >&8; echo "status $?")"
check 'a reader that has gone, audit' "$full" "$("$ssi" audit -- -h -c 2>&1 >&8; echo "status $?")"
check 'a reader that has gone, audit with the verdict no' "$full" "$("$ssi" audit h c 2>&1 >&8; echo "status $?")"
check 'a reader that has gone, order' "$full" \
    "$("$ssi" order "$examples/order/empty/history" 2>&1 >&8; echo "status $?")"
check 'a reader that has gone, help' "$full" "$("$ssi" --help 2>&1 >&8; echo "status $?")"
check 'a full device as standard error too' 'status 3' "$("$ssi" order nowhere 2>/dev/full; echo "status $?")"
check 'a reader of standard error that has gone' 'status 3' "$("$ssi" order nowhere 2>&8; echo "status $?")"
check 'a reader of both that has gone' 'status 3' "$("$ssi" <"$sample" >&8 2>&8; echo "status $?")"
check 'wrong arguments, and a reader of standard error that has gone' 'status 2' "$("$ssi" foo 2>&8; echo "status $?")"

report
