#!/usr/bin/env bash
# The built program under limits of its memory (`ulimit -v`), from where it starts to where it needs no more, in steps of 64 KiB: it answers want of memory, says nothing and makes no
# object; or all is as without a limit, which it is from the last limit on. And sources at the largest limits, which are no rows since they want some 3 GiB: 2^24 symbols, and names of 2^31
# bytes, and one more of each.
#
#     checks/limits.sh build/as [--large]     with --large the second part too
set -u
as=$(realpath "${1:-build/as}")
checks=$(realpath "$(dirname "$0")")
work=$(mktemp -d)
trap 'rm -rf "$work"' EXIT
cd "$work" || exit 1
failed=0
step=64 # KiB

# within KIB WORD..: the status of the program under this limit, with what it says in `out` and `err`
within() {
    local limit=$1
    shift
    rm -f made.o
    { (ulimit -v "$limit"; exec "$as" -o made.o "$@" >out 2>err); } 2>/dev/null
}

# The least limit under which the program starts, as the usage shows. Below it the loader finds no room.
least=1024
until within "$least" --zap || [ $? -eq 2 ]; do least=$((least + step)); done

# The object is the one that is due, or there is none and none is due.
is_due() {
    if [ -e due.o ]; then cmp -s made.o due.o; else [ ! -e made.o ]; fi
}

# steps NAME WORD..: the program on these words under each limit
steps() {
    local name=$1 limit status refused=0 done=0
    shift
    "$as" -o due.o "$@" >due.out 2>due.err
    local due=$?
    for ((limit = least; done < 16; limit += step)); do
        within "$limit" "$@"
        status=$?
        if [ "$status" -eq 5 ] && [ ! -s out ] && [ ! -s err ] && [ ! -e made.o ]; then
            refused=$((refused + 1)) done=0
        elif [ "$status" -eq "$due" ] && cmp -s out due.out && cmp -s err due.err && is_due; then
            done=$((done + 1))
        else
            echo "FAIL $name: status $status under $limit KiB"
            failed=1
            return
        fi
    done
    echo "ok   $name: no memory under $refused limits, and then status $due"
    rm -f due.o
}

if command -v gcc g++ >/dev/null; then
    gcc -O2 -w -S -g -gno-variable-location-views -mtune=nehalem -o debug.s "$checks/../bench/programs.c"
    g++ -O2 -w -S -std=c++17 -fno-gnu-unique -mtune=nehalem -o templates.s "$checks/../bench/templates.cc"
    steps 'C with debug information' debug.s
    steps 'C++' templates.s
else
    echo 'no gcc or g++ on PATH: no compiled source'
fi
steps 'functions whose frame tables are worked out' --scfi=experimental "$checks/steps.s"
steps '1,000 functions that the program makes' --self-load 1000
printf '.macro m\n.section s\\@\n.quad f\n.endm\n.rept 1000\nm\n.endr\n' >sections.s
steps '1,000 sections with relocations' sections.s
printf '.rept 40000\n.byte 256\n.endr\n' >warnings.s
steps '40,000 warnings' warnings.s
printf '.rept 40000\njmp 1f\n.endr\n1:\nfoo\n' >fault.s
steps '40,000 jumps and a fault' fault.s

# expect NAME STATUS SOURCE: what the program ends with
expect() {
    "$as" -o made.o "$3" >out 2>err
    local status=$?
    if [ "$status" -eq "$2" ]; then echo "ok   $1"; else echo "FAIL $1: status $status, not $2"; failed=1; fi
}

# As many sections as a source makes, with tables, whose sections do not count; and one more.
printf '.cfi_startproc\nnop\n.cfi_endproc\n.file 1 "a.c"\n.loc 1 1\nnop\n.macro m\n.section s\\@\n.endm\n.rept 30000\nm\n.endr\n' >tables.s
expect '30,000 sections, a frame table and a line table' 0 tables.s
for table in .eh_frame .debug_line; do
    readelf -SW made.o | grep -q " $table " || { echo "FAIL no $table"; failed=1; }
done
{ cat tables.s; echo '.section more'; } >sections.s
expect 'a section more' 1 sections.s

if [ "${2:-}" = --large ]; then
    names=$(seq -f 'n%.0f_\@' -s , 256)
    printf '.macro m\n.globl %s\n.endm\n.rept 65536\nm\n.endr\n' "$names" >symbols.s
    expect '2^24 symbols' 0 symbols.s
    echo '.globl one_more' >>symbols.s
    expect 'a symbol more' 1 symbols.s
    # 32,768 labels of 65,535 bytes, which end in numbers of five digits, each with the byte behind it.
    printf '.macro e\n.endm\n.rept 10000\ne\n.endr\n.macro m\n.L%s\\@:\n.endm\n.rept 32768\nm\n.endr\n' "$(head -c 65528 /dev/zero | tr '\0' a)" >names.s
    expect 'names of 2^31 bytes' 0 names.s
    echo '.Lx:' >>names.s
    expect 'a name more' 1 names.s
fi
exit $failed
