#!/usr/bin/env bash
# Runs the store of the built program. By `script`: the test cases, the limits of a line, streams and files that fail. By
# `serve`: clients that come one after the other, wait, or leave too early, sockets and files that can't be made, and
# sockets that fail. Compares what the program prints, its status, both files, and the verdict on them with what is wanted.
# Build the program first: (cd crates/ssi && rt run < stdin). Usage: serve.sh [PROGRAM], by default crates/ssi/out/ssi.
source "$(dirname "$0")/checks.sh"
cases=$top/crates/ssi_store_tests/data
server=
trap '[ -z "$server" ] || kill "$server" 2>/dev/null; rm -rf "$work"' EXIT

lines() { # lines; prints them
    printf '%s\n' "$@"
}

answer() { # lines; prints what `run` does if they are the standard output and the status is 0
    [ "$#" -eq 0 ] || lines "$@" | sed 's/^/out: /'
    echo 'status 0'
}

texts() { # a history and its certificate; prints both and the verdict on them, and removes them
    cat -- "$1" "$2" 2>&1
    "$ssi" audit -- "$1" "$2" 2>&1
    rm -f -- "$1" "$2"
}

left() { # paths; prints those at which there is something
    for path; do [ ! -e "$path" ] || echo "$path"; done
}

letters() { # a number; prints so many letters
    head -c "$1" /dev/zero | tr '\0' a
}

# Test cases.
for case in "$cases"/*/; do
    name=$(basename "$case")
    check "$name" "$(sed 's/^/out: /' "$case/replies"; echo 'status 0')" "$(run script h c <"$case/commands")"
    check "texts of $name" "$(cat "$case/history" "$case/certificate"; echo yes)" "$(texts h c)"
done

# Lines.
none=$(lines 'adya 1' end 'serial 1' end yes) # the texts if no command was carried out
aborted=$(lines 'adya 1' a1 end 'serial 1' end yes)
check 'no line' "$(answer)" "$(run script h c </dev/null)"
check 'texts of no line' "$none" "$(texts h c)"
check 'lines that are no commands' \
    "$(answer '? syntax' '? long' '? syntax' '? syntax' '? syntax' '? syntax' '? syntax' '? syntax')" \
    "$(lines "$(letters 4096)" "$(letters 4097)" '' 'begin A ' 'begin  A' $'begin A\r' $'\xff' 'stop now' | run script h c)"
check 'texts of lines that are no commands' "$none" "$(texts h c)"
check 'a rest without a line feed' "$(answer 'begun 1' 'begun 2' 'done')" \
    "$(printf 'begin A\nbegin B\nput A x 5\ncom' | run script h c)"
check 'texts without the rest' "$(lines 'adya 1' 'w1(x.1:1,5)' a1 a2 end 'serial 1' end yes)" "$(texts h c)"
check 'lines after stop' "$(answer 'begun 1' stopped)" "$(lines 'begin A' stop 'commit A' | run script h c)"
check 'texts without the lines after stop' "$aborted" "$(texts h c)"
check 'the longest transaction' "$(lines '1 begun 1' '65535 absent' '2 ! 4 long' '1 committed')" "$(
    (echo begin A; yes get A x | head -n 65536; lines 'put A x 1' 'commit A') |
        timeout 300 "$ssi" script h c | uniq -c | sed 's/^ *//')"
check 'the verdict on the longest transaction' yes "$("$ssi" audit h c)"
rm -f h c
cat >each.py <<'END'
import subprocess, sys

program = subprocess.Popen([sys.argv[1], "script", "h", "c"], stdin=subprocess.PIPE, stdout=subprocess.PIPE)
for line in b"begin A\n", b"put A x 1\n", b"commit A\n":
    program.stdin.write(line)
    program.stdin.flush()
    print(program.stdout.readline().decode(), end="", flush=True)
program.stdin.close()
print("status", program.wait())
END
history=$(lines 'adya 1' 'w1(x.1:1,1)' c1 '[x:1]' '{x,1}' end)
whole=$(lines "$history" 'serial 1' 1 end yes)
check 'a reply before the next line is sent' "$(lines 'begun 1' 'done' committed 'status 0')" \
    "$(timeout 60 python3 each.py "$ssi" 2>&1)"
check 'texts of lines sent one by one' "$whole" "$(texts h c)"

# Standard input and output that fail. Both texts are written all the same. A command is carried out before its reply.
lines 'begin A' 'put A x 1' 'commit A' >commands
input=$'err: ssi: read fault: stdin\nstatus 3'
check 'a folder as standard input' "$input" "$(run script h c <folder)"
check 'texts after a folder as standard input' "$none" "$(texts h c)"
check 'closed standard input' "$input" "$(run script h c <&-)"
check 'texts after closed standard input' "$none" "$(texts h c)"
output=$'ssi: write fault: stdout\nstatus 3'
check 'a full device as standard output' "$output" "$("$ssi" script h c <commands 2>&1 >/dev/full; echo "status $?")"
check 'texts after a full device as standard output' "$aborted" "$(texts h c)"
check 'closed standard output' "$output" "$("$ssi" script h c <commands 2>&1 >&-; echo "status $?")"
check 'texts after closed standard output' "$aborted" "$(texts h c)"
check 'standard output whose reader has gone' "$output" "$("$ssi" script h c <commands 2>&1 >&8; echo "status $?")"
check 'texts after a reader that has gone' "$aborted" "$(texts h c)"
check 'a reader that goes after two lines' "$(lines 'begun 1' 'done' "$output")" "$(
    (echo begin A; yes put A x 1) |
        (timeout 60 "$ssi" script h c 2>err; echo "status $?" >>err) | head -n 2
    cat err)"
check 'the verdict after that reader' yes "$("$ssi" audit h c)"
rm -f h c
check 'a full device as standard error' 'status 3' "$("$ssi" script h c <folder 2>/dev/full; echo "status $?")"
check 'texts after a full device as standard error' "$none" "$(texts h c)"

# Files that can't be written. The history comes first. Of several faults the first is printed.
replied=$(answer 'begun 1' 'done' committed)
for path in folder nowhere/file /dev/full ''; do
    fault="${replied%status 0}err: ssi: write fault: $path"$'\nstatus 3'
    check "the history to '$path'" "$fault" "$(run script "$path" c <commands)"
    check "no certificate with the history to '$path'" '' "$(left c)"
    check "the certificate to '$path'" "$fault" "$(run script h "$path" <commands)"
    check "the history with the certificate to '$path'" "$history" "$(cat h)"
    rm -f h
done
check 'standard input and the history' "$input" "$(run script folder c <folder)"
check 'standard input and the certificate' "$input" "$(run script h folder <folder)"
check 'standard output and the history' "$output" \
    "$("$ssi" script folder c <commands 2>&1 >/dev/full; echo "status $?")"
check 'standard output and the certificate' "$output" \
    "$("$ssi" script h folder <commands 2>&1 >/dev/full; echo "status $?")"
for name in h c; do letters 100000 >"$name"; done
check 'files with something in them' "$replied" "$(run script h c <commands)"
check 'what was in the files is gone' "$whole" "$(texts h c)"
check 'paths that begin with a hyphen, after --' "$replied" "$(run script -- -h -c <commands)"
check 'texts at paths that begin with a hyphen' "$whole" "$(texts -h -c)"

# One file for both texts, or for a text and the socket: refused before anything is touched. Devices and pipes aren't.
echo text >old
ln -s old to-old
ln old hard
ln -s new to-new
ln -s to-new to-to-new
for pair in 'old old' 'old folder/../old' 'old to-old' 'to-old hard' 'new new' 'new folder/../new' "new $work/new" 'new to-new' \
    'to-to-new to-new'; do
    read -r one other <<<"$pair"
    same=$'err: ssi: HISTORY and CERTIFICATE are the same file\nstatus 2'
    check "script $pair" "$same" "$(run script "$one" "$other" <commands)"
    for option in '' --concurrent --abort-on-close; do
        check "serve $option socket $pair" "$same" "$(run serve ${option:+"$option"} socket "$one" "$other")"
        check "serve $option $pair c" "${same/HISTORY and CERTIFICATE/SOCKET and HISTORY}" \
            "$(run serve ${option:+"$option"} "$one" "$other" c)"
        check "serve $option $one h $other" "${same/HISTORY and CERTIFICATE/SOCKET and CERTIFICATE}" \
            "$(run serve ${option:+"$option"} "$one" h "$other")"
    done
done
check 'one file is as before' text "$(cat old)"
check 'no new file' '' "$(left new socket h c)"
rm -f hard to-to-new
check 'both texts to a device' "$replied" "$(run script /dev/null /dev/null <commands)"
check 'both texts to standard output' "$(lines 'begun 1' 'done' committed "${whole%yes}")" \
    "$("$ssi" script /dev/stdout /dev/stdout <commands | cat; echo)"
mkfifo one-pipe
cat one-pipe >from-pipe &
check 'both texts to a pipe' "$replied" "$(exec 7>one-pipe; run script one-pipe one-pipe <commands)"
wait "$!"
check 'what came out of the pipe' "${whole%$'\nyes'}" "$(cat from-pipe)"
rm -f one-pipe from-pipe

# Clients.
cat >peers.py <<'END'
import socket, time


def connected(path):
    """A connection to the socket, as soon as the server listens."""
    peer = socket.socket(socket.AF_UNIX)
    peer.settimeout(30)
    for _ in range(1000):
        if peer.connect_ex(path) == 0:
            break
        time.sleep(0.01)
    return peer
END
cat >talk.py <<'END'
"""Sends standard input to a socket, line by line, and prints the reply to each line before it sends the next. Then it
closes the connection, after a rest without a line feed if there is one. `together`: sends all at once, and prints what
comes back; `leave`: sends all and closes; `remove`: removes the socket's file when it is connected."""
import os, socket, sys
from peers import connected

path, way = sys.argv[1], sys.argv[2] if len(sys.argv) > 2 else ""
given = sys.stdin.buffer.read()
connection = connected(path)
if way == "remove":
    os.remove(path)
replies = connection.makefile("rb")
for line in [given] if way in ("together", "leave") else given.splitlines(True):
    connection.sendall(line)
    if way != "leave" and line.endswith(b"\n"):
        sys.stdout.buffer.write(replies.readline())
if way == "together":
    connection.shutdown(socket.SHUT_WR)
    sys.stdout.buffer.write(replies.read())
END

talk() { # the socket, and how to talk; sends standard input, and prints the replies
    timeout 60 python3 talk.py "$@" 2>&1
}

start() { # the socket, the history, the certificate; starts a server
    timeout 120 "$ssi" serve "$@" >served 2>&1 &
    server=$!
}

finish() { # waits for the server; `ending` is then what it has printed, its status, and the files of sockets
    local status=0
    wait "$server" || status=$?
    server=
    ending=$(cat served; echo "status $status"; find . -type s)
}

start socket h c
check 'a peer that leaves in the middle of a line' $'begun 1\ndone' "$(printf 'begin A\nput A x 5\nput A x' | talk socket)"
check 'a session that outlives its connection' $'value 5\ncommitted\nbegun 2\nvalue 5' \
    "$(lines 'get A x' 'commit A' 'begin B' 'get B x' | talk socket)"
check 'stop' stopped "$(echo stop | talk socket)"
finish
check 'the end after stop' 'status 0' "$ending"
check 'texts of three connections' \
    "$(lines 'adya 1' 'w1(x.1:1,5)' 'r1(x.1:1,5)' c1 'r2(x.1:1,5)' a2 '[x:1]' '{x,5}' end 'serial 1' 1 end yes)" \
    "$(texts h c)"

start socket h c
check 'a peer that leaves without its replies' '' "$(yes stat | head -n 2000 | talk socket leave)"
check 'a peer after one that left' $'begun 1\nabsent' "$(lines 'begin A' 'get A x' | talk socket)"
dump=$(lines 'adya 2' 's1(x,x)' u1 end 'serial 1' end)
check 'a dump' "$dump" "$(echo dump | talk socket together)"
check 'the verdict on a dump' yes "$(lines "$dump" | "$ssi")"
check 'lines sent together' "$(lines committed 'begun 2' stopped)" \
    "$(lines 'commit A' 'begin A' stop | talk socket together)"
finish
check 'the end after lines sent together' 'status 0' "$ending"
check 'texts of lines sent together' "$(lines 'adya 1' 's1(x,x)' c1 a2 end 'serial 1' 1 end yes)" "$(texts h c)"

cat >part.py <<'END'
"""Lets the store at a socket carry out many operations, asks for a dump, and leaves after its first line."""
import sys
from peers import connected

connection = connected(sys.argv[1])
connection.sendall(b"begin A\n")
print(connection.recv(100).decode(), end="")
replies = b""
for _ in range(200):
    connection.sendall(b"put A x %s\n" % (64 * b"a") * 100)
    while not replies.endswith(b"done\n" * 100):
        replies = replies[-500:] + connection.recv(1000)
    replies = b""
connection.sendall(b"dump\n")
print(connection.recv(7).decode(), end="")
END
start socket h c
check 'a peer that sends nothing' '' "$(talk socket leave </dev/null)"
check 'a peer that leaves in the middle of a dump' $'begun 1\nadya 2' "$(timeout 60 python3 part.py socket 2>&1)"
check 'a peer after one that left in the middle of a dump' "$(lines 'done' committed stopped)" \
    "$(lines 'put A y 1' 'commit A' stop | talk socket)"
finish
check 'the end after a dump that was not read' 'status 0' "$ending"
check 'the end of that history' "$(lines 'w1(y.1:1,1)' c1 '[x:1]' '[y:1]' "{x,$(letters 64)}" '{y,1}' end)" "$(tail -n 7 h)"
check 'the verdict on that history' yes "$("$ssi" audit h c)"
rm -f h c

cat >wait.py <<'END'
import sys
from peers import connected

first, second = connected(sys.argv[1]), connected(sys.argv[1])
second.sendall(b"begin B\n")
second.settimeout(0.3)
try:
    print("early", second.recv(100))
except TimeoutError:
    print("waits")
first.sendall(b"begin A\n")
print(first.recv(100).decode(), end="")
first.close()
second.settimeout(30)
print(second.recv(100).decode(), end="")
second.sendall(b"stop\n")
print(second.recv(100).decode(), end="")
END
start socket h c
check 'a peer that waits until another one has left' "$(lines waits 'begun 1' 'begun 2' stopped)" \
    "$(timeout 60 python3 wait.py socket 2>&1)"
finish
check 'the end after two peers at once' 'status 0' "$ending"
check 'texts of two peers at once' "$(lines 'adya 1' a1 a2 end 'serial 1' end yes)" "$(texts h c)"

# All connections at once. scripts/together.py tries more of it.
cat >both.py <<'END'
import sys
from peers import connected

first, second = connected(sys.argv[1]), connected(sys.argv[1])
for peer, line in (second, b"begin B\n"), (first, b"begin A\n"), (second, b"stop\n"):
    peer.sendall(line)
    print(peer.recv(100).decode(), end="")
END
start --concurrent socket h c
check 'at once: a peer that sends half a line' $'begun 1\ndone' \
    "$(printf 'begin A\nput A x 5\nput A x' | talk socket)"
check 'at once: a session of two connections' $'value 5\ncommitted\nbegun 2\nvalue 5' \
    "$(lines 'get A x' 'commit A' 'begin B' 'get B x' | talk socket)"
check 'at once: lines sent together' "$(lines aborted '! 2 idle' '? syntax')" \
    "$(lines 'abort B' 'abort B' nothing | talk socket together)"
check 'at once: a dump' "$(lines 'adya 2' 'w1(x.1:1,5)' 'r1(x.1:1,5)' c1 'r2(x.1:1,5)' a2 '[x:1]' '{x,5}' end 'serial 1' 1 end)" \
    "$(echo dump | talk socket together)"
check 'at once: two peers' "$(lines 'begun 3' 'begun 4' stopped)" "$(timeout 60 python3 both.py socket 2>&1)"
finish
check 'at once: the end' 'status 0' "$ending"
check 'at once: the verdict' yes "$("$ssi" audit h c)"
rm -f h c
for options in '--concurrent socket h' '--concurrent' '--foo socket h c'; do
    # shellcheck disable=SC2086
    check "serve $options" 'status 2' "$(run serve $options | tail -n 1)"
done
start -- -s -h -c
check 'paths of a server that begin with a hyphen' stopped "$(echo stop | talk -s)"
finish
check 'the end of a server with such paths' 'status 0' "$ending"
check 'texts of a server with such paths' "$none" "$(texts -h -c)"

longest=$(letters 107)
start "$longest" h c
check 'the longest path of a socket' stopped "$(echo stop | talk "$longest")"
finish
check 'the end of a server with the longest path' 'status 0' "$ending"
check 'texts of a server with the longest path' "$none" "$(texts h c)"

start socket h c
check "a socket's file that is removed" stopped "$(echo stop | talk socket remove)"
finish
check "the end without the socket's file" 'status 0' "$ending"
check "texts without the socket's file" "$none" "$(texts h c)"

# Sockets that can't be made. Nothing is written.
start socket h c
check 'a peer' 'begun 1' "$(echo begin A | talk socket)"
long=$(letters 200)
echo text >file
ln -s nothing link
python3 -c 'import socket; socket.socket(socket.AF_UNIX).bind("stale")' # nobody listens
for path in "$long" "${longest}a" nowhere/socket file/socket file folder link stale socket ''; do
    check "a socket at '$path'" "err: ssi: socket fault: $path"$'\nstatus 3' "$(run serve "$path" h c)"
    check "no files with a socket at '$path'" '' "$(left h c "$long" "${longest}a" nowhere nothing)"
done
check 'the file is as before' text "$(cat file)"
check 'the link is as before' nothing "$(readlink link)"
check 'the socket without a server is there' stale "$(left stale)"
rm stale
check 'the server at that socket goes on' stopped "$(echo stop | talk socket)"
finish
check 'the end of that server' 'status 0' "$ending"
check 'texts of that server' "$aborted" "$(texts h c)"

# A socket that fails when it is there: a filter of the system refuses each call that accepts a connection. (A limit on open
# files would refuse the files of the texts, too.) Both texts are written all the same, and the socket's file is removed.
cat >without_accept <<'END'
#!/usr/bin/env python3
"""Runs the program in the variable SSI, whose calls of accept fail as if it had too many open files."""
import ctypes, os, struct, sys

ACCEPT, ACCEPT4, EMFILE = 43, 288, 24  # of Linux on x86-64
NO_NEW_PRIVILEGES, SECCOMP, FILTER = 38, 22, 2
LOAD, RETURN, IF_EQUAL = 0x20, 0x06, 0x15
ALLOW, REFUSE = 0x7FFF0000, 0x00050000
# in a step the two numbers in the middle say how many steps are passed over: if equal, and otherwise
steps = [(LOAD, 0, 0, 0), (IF_EQUAL, 1, 0, ACCEPT), (IF_EQUAL, 0, 1, ACCEPT4)]
steps += [(RETURN, 0, 0, REFUSE | EMFILE), (RETURN, 0, 0, ALLOW)]
code = ctypes.create_string_buffer(b"".join(struct.pack("HBBI", *step) for step in steps))


class Filter(ctypes.Structure):
    _fields_ = [("length", ctypes.c_ushort), ("code", ctypes.c_void_p)]


control = ctypes.CDLL(None, use_errno=True).prctl
given = Filter(len(steps), ctypes.addressof(code))
if control(NO_NEW_PRIVILEGES, 1, 0, 0, 0) or control(SECCOMP, FILTER, ctypes.byref(given)):
    sys.exit("no filter: " + os.strerror(ctypes.get_errno()))
os.execv(os.environ["SSI"], [os.environ["SSI"], *sys.argv[1:]])
END
chmod +x without_accept
refused() { # the arguments; as `run`, without accept
    SSI=$ssi ssi=./without_accept run "$@"
}

fault=$'err: ssi: socket fault: socket\nstatus 3'
check 'a socket that fails' "$fault" "$(refused serve socket h c)"
check 'no file of a socket that has failed' '' "$(left socket)"
check 'texts after a socket that fails' "$none" "$(texts h c)"
check 'a socket that fails, and the history' "$fault" "$(refused serve socket folder c)"
check 'no certificate if both fail' '' "$(left c)"
check 'a socket that fails, and the certificate' "$fault" "$(refused serve socket h folder)"
check 'the history if both fail' $'adya 1\nend' "$(cat h)"
rm -f h

# Files of a server that can't be written.
for path in folder nowhere/file /dev/full ''; do
    fault="ssi: write fault: $path"$'\nstatus 3'
    start socket "$path" c
    check "a server with the history to '$path'" stopped "$(echo stop | talk socket)"
    finish
    check "its end with the history to '$path'" "$fault" "$ending"
    check "no certificate of a server with the history to '$path'" '' "$(left c)"
    start socket h "$path"
    check "a server with the certificate to '$path'" stopped "$(echo stop | talk socket)"
    finish
    check "its end with the certificate to '$path'" "$fault" "$ending"
    check "its history with the certificate to '$path'" $'adya 1\nend' "$(cat h)"
    rm -f h
done

# A server of all connections at once sees beforehand that a file can't be written, and touches nothing.
early() { # the history, the certificate, the faulty path and the reason; checks what the server says at once
    check "at once: '$1' and '$2'" "err: ssi: write fault: $3: $4"$'\nstatus 3' "$(run serve --concurrent socket "$1" "$2")"
    check "at once: nothing is left of '$1' and '$2'" "$untouched" "$(ls -A)"
}
rm -f old to-old to-new h c
untouched=$(ls -A)
for reason in 'folder:it is a folder' 'nowhere/file:there is no such folder' 'commands/file:a part of the path is not a folder' \
    "folder/$(letters 256):a name in the path is too long" ':there is no such folder'; do
    early "${reason%%:*}" c "${reason%%:*}" "${reason#*:}"
    early h "${reason%%:*}" "${reason%%:*}" "${reason#*:}"
done
shared=$(mktemp -d)
cp "$ssi" "$shared/ssi"
mkdir "$shared/closed"
echo old >"$shared/closed/own"
echo old >"$shared/closed/other"
chmod 755 "$shared"
chmod 555 "$shared/closed"
chmod 444 "$shared/closed/other"
other=()
if [ "$(id -u)" -eq 0 ]; then # a user who may not write everywhere
    other=(setpriv --reuid=65534 --regid=65534 --clear-groups)
    chown 65534 "$shared/closed/own"
    chmod 777 "$shared"
fi
cat >as_other <<END
#!/usr/bin/env bash
cd "$shared" && exec ${other[@]} ./ssi "\$@"
END
chmod +x as_other
as_other() { # the arguments; as \`run\`, in that folder and as that user
    ssi=$work/as_other run "$@"
}
denied() { # a path; what is said of it
    echo "err: ssi: write fault: $1: permission denied"$'\nstatus 3'
}
check 'at once: a new file in a closed folder' "$(denied closed/h)" "$(as_other serve --concurrent socket closed/h c)"
check 'at once: a closed file' "$(denied closed/other)" "$(as_other serve --concurrent socket c closed/other)"
timeout 120 ./as_other serve --concurrent socket closed/own c >served 2>&1 &
server=$!
check 'at once: an own file in a closed folder' stopped "$(echo stop | talk "$shared/socket")"
finish
check 'at once: the end with an own file in a closed folder' 'status 0' "$ending"
chmod 755 "$shared/closed"
check 'at once: that file is written in its place' "$none" "$(texts "$shared/closed/own" "$shared/c")"

# Sockets that this user may not make or use: in that folder, and two of another user, at one of which a server listens.
# Whether one does can't be told.
python3 -c 'import socket, sys; socket.socket(socket.AF_UNIX).bind(sys.argv[1])' "$shared/stale" # nobody listens
start --concurrent "$shared/alive" h c
check "at once: a peer of another user's server" 'begun 1' "$(echo begin A | talk "$shared/alive")"
chmod 555 "$shared/closed" "$shared/stale" "$shared/alive"
untouched=$(ls -A "$shared" "$shared/closed")
unusable="a socket is there that can't be used"
for reason in 'closed/socket:permission denied' "stale:$unusable" "alive:$unusable"; do
    path=${reason%%:*}
    check "at once: another user's '$path'" "err: ssi: socket fault: $path: ${reason#*:}"$'\nstatus 3' \
        "$(as_other serve --concurrent "$path" history certificate)"
    check "another user's '$path'" "err: ssi: socket fault: $path"$'\nstatus 3' \
        "$(as_other serve "$path" history certificate)"
done
check "nothing is made or removed beside another user's sockets" "$untouched" "$(ls -A "$shared" "$shared/closed")"
chmod 755 "$shared/alive"
check "another user's server goes on" stopped "$(echo stop | talk "$shared/alive")"
finish
check "the end of another user's server" 'status 0' "$ending"
check "texts of another user's server" "$aborted" "$(texts h c)"
chmod 755 "$shared/closed"
rm -rf "$shared"

# It writes beside a file and then renames, so that a full disk leaves what was there.
echo old >h
chmod 640 h
echo old >real
ln -s real to-real
start --concurrent socket h to-real
check 'at once: files that are there' stopped "$(echo stop | talk socket)"
finish
check 'at once: the end with files that are there' 'status 0' "$ending"
check 'at once: their mode and the link are as before' '640 real' "$(stat -c %a h) $(readlink to-real)"
check 'at once: their texts' "$none" "$(texts h real)"
rm -f to-real
ln -s nowhere-yet to-new
start --concurrent socket h to-new
check 'at once: a link to no file' stopped "$(echo stop | talk socket)"
finish
check 'at once: the end with a link to no file' 'status 0' "$ending"
check 'at once: the texts by a link to no file' "$none" "$(texts h nowhere-yet)"
rm -f to-new
start --concurrent socket /dev/null /dev/null
check 'at once: a device' stopped "$(echo stop | talk socket)"
finish
check 'at once: the end with a device' 'status 0' "$ending"
check 'at once: the device is there' 'character special file' "$(stat -c %F /dev/null)"
for text in h c; do echo old >"$text"; done
(
    trap '' XFSZ # a file that would grow too large is refused, as on a full disk
    ulimit -f 1
    exec timeout 120 "$ssi" serve --concurrent socket h c
) >served 2>&1 &
server=$!
check 'at once: a long history' stopped \
    "$( (echo begin A; for i in $(seq 200); do echo "put A k$i 1"; done; lines 'commit A' stop) | talk socket together | tail -n 1)"
finish
check 'at once: a history for which there is no space' $'ssi: write fault: h\nstatus 3' "$ending"
check 'at once: both files are as before' $'old\nold' "$(cat h c)"
check 'at once: nothing is left beside them' '' "$(find . -name '.ssi-*')"
rm -f h c

# The tool for a terminal.
start --concurrent --abort-on-close socket h c
check 'a terminal' $'begun 1\ndone\n? syntax' "$(talk socket </dev/null; lines 'begin A' 'put A x 1' nothing | "$top/tools/talk.py" socket)"
check 'what it left open is aborted' $'! 2 idle\nstopped' "$(lines 'commit A' stop | "$top/tools/talk.py" socket)"
finish
check 'the end after a terminal' 'status 0' "$ending"
check 'a terminal without a server' $'talk.py: socket: No such file or directory\nstatus 2' \
    "$("$top/tools/talk.py" socket </dev/null 2>&1; echo "status $?")"
rm -f h c

# Why a socket can't be made.
start --concurrent socket h c
check 'at once: a peer' 'begun 1' "$(echo begin A | talk socket)"
python3 -c 'import socket; socket.socket(socket.AF_UNIX).bind("stale")' # nobody listens
too_long='the path has more than 107 bytes, or is empty'
for reason in "$long:$too_long" "${longest}a:$too_long" ":$too_long" 'nowhere/socket:there is no such folder' \
    'file/socket:a part of the path is not a folder' 'file:another file is there' 'folder:another file is there' \
    'link:another file is there' 'stale:no server listens at it any more: remove the file' 'socket:a server listens at it'; do
    path=${reason%%:*}
    check "at once: a socket at '$path'" "err: ssi: socket fault: $path: ${reason#*:}"$'\nstatus 3' \
        "$(run serve --concurrent "$path" history certificate)"
done
rm stale
check 'at once: no files without a socket' '' "$(left history certificate)"
check 'at once: the server at that socket goes on' stopped "$(echo stop | talk socket)"
finish
check 'at once: the end of that server' 'status 0' "$ending"

report
