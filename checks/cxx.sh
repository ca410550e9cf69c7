#!/usr/bin/env bash
# A C++ program of three files and one of C, with templates, inline functions and variables, virtual functions, static initialisers, thread-local variables and exceptions, compiled
# by g++ and assembled by the built program in several ways: linked it prints what g++'s own build prints, with exceptions thrown through several frames and through the function of C;
# each group of sections and each frame table is GNU as's, and one copy of what both have is left.
set -eu
as=$(realpath "${1:-build/as}")
sources=$(realpath "$(dirname "$0")")/cxx
work=$(mktemp -d)
trap 'rm -rf "$work"' EXIT
cd "$work"
flags=(-fexceptions -fno-gnu-unique -ftls-model=initial-exec -mtune=nehalem)
names=(main others throwing calling)

# The groups of an object, without the numbers of their sections.
groups() { readelf -gW "$1" | sed -E 's/\[ *[0-9]+\]//g'; }
# Its frame tables, and where their fields point to, without the numbers of symbols.
frames() {
    readelf --debug-dump=frames "$1"
    readelf -rW "$1" | awk '/^Relocation section/ { on = /\.rela\.eh_frame/; next } on && NF > 4 { $2 = ""; print }'
}
# The C++ files and the C file, by the compiler of each.
compiled() {
    local name=$1
    shift
    if [ "$name" = calling ]; then gcc "$@" "$sources/$name.c"; else g++ -std=c++17 "$@" "$sources/$name.cc"; fi
}

for name in "${names[@]}"; do compiled "$name" -fexceptions -c -o "$name.due.o"; done
g++ -o due "${names[@]/%/.due.o}" -pthread
./due >due.txt
for level in -O0 -O2; do
    for way in '-fPIC -pie' '-fno-pic -no-pie' '-fPIC -shared'; do
        read -r code link <<<"$way"
        for name in "${names[@]}"; do
            compiled "$name" "${flags[@]}" "$level" "$code" -S -o "$name.s"
            "$as" -o "$name.o" "$name.s"
            as -o "$name.gnu.o" "$name.s"
            diff <(groups "$name.o") <(groups "$name.gnu.o")
            diff <(frames "$name.o") <(frames "$name.gnu.o")
        done
        if [ "$link" = -shared ]; then
            g++ -shared -o libothers.so others.o throwing.o calling.o
            g++ -pie -o said main.o ./libothers.so -pthread
        else
            g++ "$link" -o said "${names[@]/%/.o}" -pthread
        fi
        ./said | diff - due.txt
        echo "ok   g++ $level $way: $(readelf -gW "${names[@]/%/.o}" | grep -c '^COMDAT') groups, $(cat "${names[@]/%/.s}" | grep -c cfi_lsda) LSDAs of ${#names[@]} objects"
    done
done
