#!/usr/bin/env bash
# gcc with the built program as its assembler: `gcc -B` with the words that builds pass on, and a shared library with data that has two
# names, which a program reads by a copy relocation.
set -eu
gcc_as=$(realpath "${1:-build/gcc}")/
examples=$(realpath "$(dirname "$0")/../examples")
work=$(mktemp -d)
trap 'rm -rf "$work"' EXIT
cd "$work"

gcc -B"$gcc_as" -I. -g0 -fPIC -v -w -mtune=generic -Wa,--noexecstack -c "$examples/aliases.c" -o aliases.o 2>words
grep -q -- ' -v .*-I \. .*--64 .*--noexecstack' words && echo 'ok   gcc passes words on that are left out'
readelf -sW aliases.o | grep -Eq ' 4 OBJECT +GLOBAL .* also$' && echo 'ok   the alias has kind and size'
gcc -shared -o libaliases.so aliases.o
gcc -no-pie -fno-pic -DREADER "$examples/aliases.c" ./libaliases.so -o reader
readelf -rW reader | grep -Eq 'R_X86_64_COPY .* also ' && echo 'ok   the reader has a copy relocation'
[ "$(./reader)" = abc ] && echo 'ok   the reader reads what the library holds'

! gcc -B"$gcc_as" -c -x assembler none.s -o none.o 2>said || exit 1
"$gcc_as/as" --64 -o none.o none.s 2>said || status=$?
[ "$status" -eq 3 ] && grep -q 'cannot be read' said && echo 'ok   a source that cannot be read is told'
[ "$(cat said)" = 'as: none.s cannot be read' ] && echo 'ok   its name is told'
mkdir parts
echo nop >parts/there.inc
printf '.include "there.inc"\n' >includes.s
"$gcc_as/as" -I none -I parts -o includes.o includes.s 2>said || status=$?
grep -q '^as: there.inc, included by includes.s, is in parts' said && echo 'ok   a file that is in a folder of -I is named, with the folder'
echo nop >one.s
"$gcc_as/as" -o none/one.o one.s 2>said || status=$?
[ "$status" -eq 4 ] && grep -q '^as: none/one.o' said && echo 'ok   an object that cannot be written is named'
