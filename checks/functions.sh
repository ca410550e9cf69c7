#!/usr/bin/env bash
# Functions that gcc compiles without the tables for unwinding, assembled by the built program: linked in three ways with a main, they print what gcc's own build
# of them prints.
set -eu
as=$(realpath "${1:-build/as}")
functions=$(realpath "$(dirname "$0")")/functions.c
work=$(mktemp -d)
trap 'rm -rf "$work"' EXIT
cd "$work"
how=(-O2 -fPIC -ftls-model=initial-exec)

gcc "${how[@]}" -fno-asynchronous-unwind-tables -DNO_MAIN -S -o functions.s "$functions"
"$as" -o functions.o functions.s
echo "ok   $(grep -Ec '^\s+[a-z]' functions.s) instructions of $(grep -c '@function' functions.s) functions are assembled"
gcc "${how[@]}" -o due "$functions"
./due >due.txt
gcc "${how[@]}" -DONLY_MAIN -c -o main.o "$functions"
for way in -no-pie -pie; do
    gcc "$way" -o said main.o functions.o
    ./said | cmp - due.txt
    echo "ok   gcc $way: $(wc -l <due.txt) lines"
done
gcc -shared -o libfunctions.so functions.o
gcc -o said main.o ./libfunctions.so
./said | cmp - due.txt
echo 'ok   gcc -shared: the same'
