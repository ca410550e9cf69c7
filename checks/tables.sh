#!/usr/bin/env bash
# The example of tables, assembled by the built program and linked by gcc in three ways: each program runs, and finds what it should.
set -eu
as=$(realpath "${1:-build/as}")
examples=$(realpath "$(dirname "$0")/../examples")
work=$(mktemp -d)
trap 'rm -rf "$work"' EXIT
cd "$work"

"$as" -o tables.o "$examples/tables.s"
[ -z "$(readelf -aW tables.o 2>&1 >/dev/null)" ] && echo 'ok   readelf says no warning'
for how in -no-pie -pie; do
    gcc "$how" -pthread -o tables "$examples/tables.c" tables.o
    ./tables >said && echo "ok   gcc $how: $(wc -l <said) tries"
done
gcc -shared -fPIC -pthread -DNO_MAIN -o libtables.so "$examples/tables.c" tables.o
gcc -DONLY_MAIN -o tables "$examples/tables.c" ./libtables.so
./tables >said && echo "ok   gcc -shared: $(wc -l <said) tries"
