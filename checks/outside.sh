#!/usr/bin/env bash
# The built program on files and streams that fail, that are closed, or that are no plain files: its exit status, and that it says nothing false.
# Run it after the gate, as `make check-outside`. Where it runs as root, files without permission are tried as nobody.
set -u
as=$(realpath "${1:-build/as}")
work=$(mktemp -d)
trap 'rm -rf "$work"' EXIT
cd "$work" || exit 1
failed=0

# expect NAME STATUS: what the last command ended with
expect() {
    if [ "$2" -eq "$status" ]; then echo "ok   $1"; else echo "FAIL $1: status $status, not $2"; failed=1; fi
}

printf 'nop\n' >good.s
printf 'foo\n' >bad.s

"$as" none.s; status=$?; expect 'a file that does not exist' 3
"$as" .; status=$?; expect 'a directory as FILE' 3
"$as" bad.s 2>/dev/full; status=$?; expect 'messages to a full device' 4
[ ! -e a.out ]; status=$?; expect 'no object after messages that could not be said' 0
ln -s /dev/full a.out
"$as" good.s; status=$?; expect 'an object on a full device' 4
[ -e a.out ]; status=$?; expect 'the device is left alone' 0
rm a.out
# A write past the limit of a file's size fails once the signal for it is ignored.
printf '.skip 100000,1\n' >large.s
(trap '' XFSZ; ulimit -f 1; exec "$as" large.s); status=$?; expect 'an object past the limit of a file' 4
[ ! -e a.out ]; status=$?; expect 'no half object' 0
# Permissions, as root by another user.
run=("$as")
if [ "$(id -u)" -eq 0 ]; then run=(setpriv --reuid=65534 --regid=65534 --clear-groups "$as"); chmod 755 .; fi
if "${run[@]}" --zap 2>/dev/null; [ $? -eq 2 ]; then
    mkdir closed && chmod 555 closed
    (cd closed && "${run[@]}" ../good.s); status=$?; expect 'a folder that may not be written to' 4
    mkdir open && chmod 777 open && cp good.s open/unread.s && touch open/old.o && chmod 000 open/unread.s && chmod 444 open/old.o
    (cd open && "${run[@]}" unread.s); status=$?; expect 'a file that may not be read' 3
    (cd open && "${run[@]}" -o old.o ../good.s); status=$?; expect 'an object that may not be written to' 4
    [ -e open/old.o ] && [ ! -e open/a.out ]; status=$?; expect 'it is left alone' 0
else
    echo 'no user without rights: permissions are not tried'
fi
"$as" bad.s 2>said; status=$?; expect 'a source with a fault' 1
printf 'bad.s: Assembler messages:\nbad.s:1: Error: unknown mnemonic\n' | cmp -s - said; status=$?; expect 'its messages' 0
"$as" good.s; status=$?; expect 'a source with an object' 0
printf 'nop\n' | "$as"; status=$?; expect 'a source on standard input' 0
printf 'foo\n' | "$as" - 2>said; status=$?; expect 'a fault on standard input' 1
printf '{standard input}: Assembler messages:\n{standard input}:1: Error: unknown mnemonic\n' | cmp -s - said; status=$?; expect 'its messages' 0

# Closed streams. A file that is opened then may get the number of a stream: nothing is said into it.
"$as" -o due.o good.s; status=$?; expect 'an object by its name' 0
"$as" -o made.o good.s <&- && cmp made.o due.o; status=$?; expect 'standard input that is closed' 0
"$as" -o made.o good.s >&- && cmp made.o due.o; status=$?; expect 'standard output that is closed' 0
"$as" -o made.o good.s 2>&- && cmp made.o due.o; status=$?; expect 'standard error that is closed' 0
"$as" -o made.o good.s <&- >&- 2>&- && cmp made.o due.o; status=$?; expect 'all streams closed' 0
rm made.o
"$as" -o made.o - <&-; status=$?; expect 'a source on closed standard input' 3
"$as" -o made.o bad.s 2>&-; status=$?; expect 'a fault on closed standard error' 4
"$as" -o made.o --zap 2>&-; status=$?; expect 'the usage on closed standard error' 4
"$as" -o made.o --self-load 3 >&-; status=$?; expect 'a summary on closed standard output' 4
printf '.byte 256\n' >warned.s
cp warned.s kept.s
"$as" -o made.o warned.s 2>&-; status=$?; expect 'a warning on closed standard error' 4
[ ! -e made.o ]; status=$?; expect 'no object of these' 0
cmp warned.s kept.s; status=$?; expect 'the source as it was' 0
(sleep 0.2; exec "$as" bad.s 2>&1) | true; status=${PIPESTATUS[0]}; expect 'messages to a pipe that nobody reads' 4

# What is no plain file.
mkfifo in out
timeout 20 cp good.s in &
"$as" -o made.o in && cmp made.o due.o; status=$?; expect 'a fifo as FILE' 0
timeout 20 cat out >made.o &
"$as" -o out good.s && wait && cmp made.o due.o && [ -p out ]; status=$?; expect 'an object into a fifo' 0
timeout 20 head -c 1 out >/dev/null &
"$as" -o out large.s; status=$?; expect 'an object into a fifo that is not read to its end' 4
wait
[ -p out ]; status=$?; expect 'the fifo is left alone' 0
"$as" -o /dev/null good.s; status=$?; expect 'an object into the null device' 0
[ -c /dev/null ]; status=$?; expect 'the null device is left alone' 0
"$as" -o /dev/stdout good.s | cmp - due.o; status=$?; expect 'an object on standard output' 0
mkdir folder
"$as" -o folder good.s; status=$?; expect 'a directory as the object' 4
[ -d folder ]; status=$?; expect 'the directory is left alone' 0
"$as" -o none/made.o good.s; status=$?; expect 'an object in a folder that does not exist' 4
[ ! -e none ]; status=$?; expect 'no folder is made' 0
cp good.s both.s
"$as" -o both.s both.s && cmp both.s due.o; status=$?; expect 'the source as the object' 0
exit $failed
