#!/usr/bin/env bash
# A weak alias of a C program, assembled by the built program under gcc: a strong definition in another file is the one that is called, and read by its address,
# and where there is none the default is.
set -eu
gcc_as=$(realpath "${1:-build/gcc}")/
work=$(mktemp -d)
trap 'rm -rf "$work"' EXIT
cd "$work"

cat >weak.c <<'C'
#include <stdio.h>

static int dflt(void) { return 'd'; }
int hook(void) __attribute__((weak, alias("dflt")));
int (*const table[])(void) = {hook};
int data_dflt = 'e';
extern int data __attribute__((weak, alias("data_dflt")));

__attribute__((noinline)) int called(void) { return hook() + 0; }
__attribute__((noinline)) int jumped(void) { return hook(); }

#ifdef LIBRARY
int seen(int n) { return n == 0 ? called() : n == 1 ? jumped() : n == 2 ? table[0]() : data; }
#else
int main(void) { printf("%c%c%c%c\n", called(), jumped(), table[0](), data); }
#endif
C
cat >strong.c <<'C'
int hook(void) { return 's'; }
int data = 't';
C
cat >main.c <<'C'
#include <stdio.h>

int seen(int);
int main(void) { printf("%c%c%c%c\n", seen(0), seen(1), seen(2), seen(3)); }
C

# same WHAT DUE COMMAND: the command prints what is due
same() {
    [ "$("$3")" = "$2" ] && echo "ok   $1" || { echo "FAIL $1: $("$3"), not $2"; exit 1; }
}

for level in -O0 -O2; do
    how=(-B"$gcc_as" -g0 -mtune=nehalem "$level")
    gcc "${how[@]}" -fno-pic -c -o weak.o weak.c
    gcc "${how[@]}" -fno-pic -c -o strong.o strong.c
    gcc -static -o alone weak.o
    gcc -static -o both weak.o strong.o
    same "gcc $level, static: the default alone" ddde ./alone
    same "gcc $level, static: the strong definition" ssst ./both

    gcc "${how[@]}" -fPIC -DLIBRARY -c -o weak.o weak.c
    gcc "${how[@]}" -fPIC -c -o strong.o strong.c
    gcc "${how[@]}" -c -o main.o main.c
    gcc -shared -o libweak.so weak.o
    gcc -shared -o libboth.so weak.o strong.o
    gcc -o alone main.o ./libweak.so
    gcc -o both main.o ./libboth.so
    gcc -o over main.o strong.o ./libweak.so
    same "gcc $level, shared: the default alone" ddde ./alone
    same "gcc $level, shared: the strong definition in the library" ssst ./both
    same "gcc $level, shared: the strong definition of the program" ssst ./over
done
