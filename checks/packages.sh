#!/usr/bin/env bash
# Builds zlib, bzip2, Lua, lz4, expat, xz, SQLite and, in C++ with exceptions, pugixml with the assembler in a folder for
# `gcc -B`, and with the machine's own; runs the tests of each package, and compares what they print. One line for a
# package and a set of flags; a refusal is given with its messages, how often each came, and in how many files. Lua's
# package has no tests, and those of SQLite want Tcl's library: scripts of ours are run.
#
#   checks/packages.sh build/gcc [PACKAGE..]
#
# The sources are Debian's source packages, kept in build/packages/. Where they cannot be had, it says so and ends with
# status 0. It ends with 1 where a package is refused that docs/COMPATIBILITY.md does not name, fails, or prints
# something else.
set -u
cd "$(dirname "$0")/.." || exit 1
folder=$(realpath "${1:?a folder for gcc -B}")
shift
packages=${*:-zlib bzip2 lua5.4 lz4 expat xz-utils sqlite3 pugixml}
room=build/packages
mkdir -p $room/apt/lists/partial $room/apt/archives/partial
room=$(realpath $room)
mirror=${DEBIAN_MIRROR:-http://deb.debian.org/debian}
suite=${DEBIAN_SUITE:-bookworm}
common='-mtune=nehalem'
sets=('-g0 -O0' '-g0 -O2' '-g0 -Os' '-g0 -O2 -fPIC' '-g0 -O2 -masm=intel' '-g0 -O0 -masm=intel'
    '-g0 -O2 -fno-asynchronous-unwind-tables' '-g -gno-variable-location-views -O2')

# What is known to be refused: addresses that are numbers, as `ds:0`, which gcc writes in some files, and `.cfi_escape`, which
# it writes at -Os where arguments of a call are on the stack.
known='lua5.4 -g0 -O2 -masm=intel: refused: 2 bad operand; in 2 files
pugixml -g0 -Os: refused: 1 unknown directive; in 1 files
xz-utils -g0 -O2 -masm=intel: refused: 2 bad operand; in 2 files
sqlite3 -g0 -O2 -masm=intel: refused: 1 bad operand; in 1 files
pugixml -g0 -O2 -masm=intel: refused: 3 bad operand; in 3 files'

# The source of a package, in the folder that is printed.
fetch() {
    local package=$1 archive
    archive=$(ls "$room/$package"_*.orig.tar.* 2>/dev/null | head -1)
    if [ -z "$archive" ]; then
        echo "deb-src $mirror $suite main" >"$room/apt/sources.list"
        {
            printf 'Dir::Etc::sourcelist "%s";\nDir::Etc::sourceparts "/dev/null";\n' "$room/apt/sources.list"
            printf 'Dir::State::lists "%s";\nDir::Cache "%s";\n' "$room/apt/lists" "$room/apt"
        } >"$room/apt/apt.conf"
        [ -n "$(ls "$room"/apt/lists/*Sources* 2>/dev/null)" ] ||
            APT_CONFIG=$room/apt/apt.conf timeout 120 apt-get -qq update >/dev/null 2>&1
        (cd "$room" && export APT_CONFIG="$room/apt/apt.conf" &&
            timeout 300 apt-get -qq source --download-only "$package" >/dev/null 2>&1)
        archive=$(ls "$room/$package"_*.orig.tar.* 2>/dev/null | head -1)
    fi
    [ -n "$archive" ] || return 1
    rm -rf "$room/work" && mkdir "$room/work" &&
        tar -xf "$archive" -C "$room/work" --strip-components=1 && echo "$room/work"
}

# Each builds a package in the current folder by the compiler $CC with $FLAGS, and prints what its tests print. Where a
# file is refused, the others are compiled all the same.
test_zlib() {
    CC="$CC" CFLAGS="$FLAGS" ./configure >log 2>&1 && make -s -k test
}

test_bzip2() {
    make -s -k CC="$CC" CFLAGS="$FLAGS -D_FILE_OFFSET_BITS=64" test
}

test_lua5_4() {
    make -s -k -C src all CC="$CC" CFLAGS="$FLAGS -std=gnu99 -DLUA_USE_LINUX" SYSLIBS='-Wl,-E -ldl' || return 1
    cat >t.lua <<'L'
local function fib(n) if n < 2 then return n end return fib(n - 1) + fib(n - 2) end
print(fib(25), 7 // 2, 7 % -3, 2 ^ 53, 1e308 * 10, -1 // 0.0, 3 | 4, ~5, 1 << 62)
local t = {}
for i = 1, 1000 do t[i] = (i * 7919) % 1009 end
table.sort(t)
print(t[1], t[500], t[1000], #t, select('#', table.unpack(t, 1, 50)))
print(string.format('%5.2f %g %a %x %q', 3.14159, 1e100, 0.1, 255, 'a\n"b'))
print(('abc'):rep(3, '-'), ('hello'):gsub('l+', '<%0>'))
print(pcall(function() error({ code = 42 }) end), select(2, pcall(error, 'x')), math.type(3), math.type(3.0))
local c = coroutine.wrap(function(a) for i = 1, 3 do a = coroutine.yield(a * i) end return 'end' end)
print(c(5), c(6), c(7), c(8))
print(string.pack('<i4z', 100, 'abc'):byte(1, -1))
print(load('return function(...) local a <const> = ... ; goto l; ::l:: return a end')()(9))
print(os.time({ year = 2020, month = 1, day = 2, hour = 12 }) ~= nil, utf8.char(228, 8364), utf8.len('äß'))
L
    ./src/lua t.lua && ./src/luac -l -l -s t.lua | grep -v 0x
}

# What the tests of lz4 print on the way depends on how fast they are: what they print at their end is kept.
test_lz4() {
    make -s -k -j3 -C tests CC="$CC" CFLAGS="$FLAGS" datagen fuzzer frametest >/dev/null || return 1
    make -s -k -j3 -C programs CC="$CC" CFLAGS="$FLAGS -mlong-double-64" lz4 >/dev/null || return 1
    tests/datagen -g3000000 >data && programs/lz4 -q -9 -f data data.lz4 && sha256sum data.lz4 || return 1
    programs/lz4 -q -d -c data.lz4 | cmp - data || return 1
    tests/fuzzer -s7 -i100 >log 2>&1 && tr '\r' '\n' <log | grep -i 'ratio' || return 1
    tests/frametest -s7 -i100 >log 2>&1 && tr '\r' '\n' <log | grep -o 'All tests completed'
}

test_expat() {
    mkdir build && cd build &&
        cmake -DCMAKE_C_COMPILER="${CC%% *}" -DCMAKE_C_FLAGS="${CC#* } $FLAGS" -DCMAKE_BUILD_TYPE= \
            -DEXPAT_BUILD_DOCS=OFF -DEXPAT_BUILD_TESTS=ON -DEXPAT_SHARED_LIBS=OFF -DEXPAT_BUILD_EXAMPLES=OFF \
            ../expat >log 2>&1 &&
        make -s -k runtests xmlwf >log 2>&1 || { cat log; return 1; }
    printf '<a x="1"><b/>&lt;</a>' >t.xml && mkdir out &&
        tests/runtests && xmlwf/xmlwf t.xml && xmlwf/xmlwf -d out t.xml && cat out/t.xml
}

test_xz_utils() {
    ./configure --disable-nls --disable-doc --disable-shared --disable-dependency-tracking CC="$CC" CFLAGS="$FLAGS" >log 2>&1 &&
        make -s -k -j3 >log 2>&1 || { cat log; return 1; }
    make -s -k -j3 check >log 2>&1 || { cat log; return 1; }
    grep -E '^(PASS|SKIP|FAIL|# )' log | LC_ALL=C sort
    cat src/*/*.c >data && src/xz/xz -k -9e data && sha256sum data.xz && src/xz/xz -dc data.xz | cmp - data
}

# The programs that write SQLite's source are the machine's.
test_sqlite3() {
    BUILD_CC=gcc BUILD_CFLAGS=-O1 CC="$CC" CFLAGS="$FLAGS" ./configure --disable-tcl --disable-readline --disable-shared \
        --disable-load-extension >log 2>&1 && make -s sqlite3.c shell.c >log 2>&1 || { cat log; return 1; }
    local unit built=0
    for unit in sqlite3 shell; do
        $CC $FLAGS -mlong-double-64 -w -I. -DSQLITE_THREADSAFE=0 -DSQLITE_OMIT_LOAD_EXTENSION -DSQLITE_ENABLE_FTS5 \
            -DSQLITE_ENABLE_RTREE -c $unit.c || built=1
    done
    [ $built = 0 ] && $CC $FLAGS -o sqlite3 shell.o sqlite3.o -lm || return 1
    cat >t.sql <<'Q'
create table t(a integer primary key, b text, c real);
with recursive n(i) as (select 1 union all select i + 1 from n where i < 20000)
    insert into t select i, printf('%06d%s', (i * 7919) % 10007, char(65 + i % 26)), i * 0.37 - i * i / 3.0 from n;
create index tb on t(b, c);
select count(*), sum(a), min(b), max(b), printf('%.9g', avg(c)), printf('%.12e', total(c * c)) from t;
select a, b, row_number() over (partition by a % 7 order by b desc) r from t where a % 501 = 3 order by r, a limit 12;
select x.a, y.b from t x join t y on y.a = x.a * 3 where x.b > '009' and y.c < 0 order by y.b, x.a limit 5;
create virtual table f using fts5(words);
insert into f select group_concat(substr(b, 3, 3), ' ') from t group by a / 50;
select count(*), sum(rowid) from f where f match '123* OR 77*';
create virtual table r using rtree(id, x0, x1, y0, y1);
insert into r select a, a % 100, a % 100 + 2, a / 100, a / 100 + 3 from t;
select count(*), sum(id) from r where x0 > 20 and x1 < 40 and y0 between 10 and 90;
create trigger g after delete on t begin insert into f values (old.b); end;
delete from t where a % 3 = 0;
select count(*) from f;
update t set c = round(c, 2) || '', b = upper(hex(b)) where a between 40 and 50;
select * from t where a between 40 and 50;
select json_extract('{"a":[1,2.5,{"b":"x\u00e9"}]}', '$.a[2].b'), json_group_array(a) from t where a < 20;
select date('2024-02-29', '+1 year'), strftime('%s', '1970-01-02 03:04:05'), 7 / 2, -7 % 3, 7.0 / 2, 1e308 * 10, 9223372036854775807 + 1;
select printf('%!.17g %08.3f %+d %x %s', 0.1, -3.14159, 42, 48879, quote(x'00ff')), like('a%b_', 'AxxBy'), glob('[a-c]*', 'bcd');
vacuum;
pragma integrity_check;
pragma page_count;
Q
    ./sqlite3 -batch db <t.sql
}

test_pugixml() {
    make -s -k -j3 test BUILD=built CXX="${CC/gcc/g++}" CXXFLAGS="$FLAGS -w -std=c++11 -fno-gnu-unique -maccumulate-outgoing-args"
}

# Builds and tests with the compiler; what was printed is in the file.
run() {
    local package=$1 compiler=$2 flags=$3 out=$4 place
    place=$(fetch "$package") || return 9
    (cd "$place" && CC=$compiler FLAGS=$flags && export CC FLAGS && "test_${package//[.-]/_}") >"$out" 2>&1
}

# How a package is refused: how often each message came, and in how many files.
refusals() {
    grep -h 'Error: ' "$1" | grep -v '^make' | sed 's/.*Error: //' | sort | uniq -c | sort -rn | tr -s ' ' | tr '\n' ';'
    echo " in $(grep -c 'Assembler messages:' "$1") files"
}

date +%F
gcc --version | head -1
as --version | head -1
bad=0
for package in $packages; do
    if ! fetch "$package" >/dev/null; then
        echo "$package: its source cannot be had here"
        continue
    fi
    basename "$(ls "$room/$package"_*.dsc | head -1)" .dsc
    for flags in "${sets[@]}"; do
        run "$package" 'gcc -Wno-all' "$common $flags" "$room/theirs"
        wanted=$?
        run "$package" "gcc -B$folder/ -Wno-all" "$common $flags" "$room/ours"
        got=$?
        if [ $wanted -ne 0 ]; then
            echo "$package $flags: does not pass with the machine's own assembler"
        elif grep -q 'Assembler messages:' "$room/ours"; then
            told="$package $flags: refused:$(refusals "$room/ours")"
            echo "$told"
            grep -qxF "$told" <<<"$known" || bad=1
        elif [ $got -ne 0 ]; then
            echo "$package $flags: fails ($got)"
            bad=1
        elif ! diff -q <(sed "s|-B$folder/||g" "$room/theirs") <(sed "s|-B$folder/||g" "$room/ours") >/dev/null; then
            echo "$package $flags: passes, and prints something else"
            bad=1
        else
            echo "$package $flags: alike, $(wc -l <"$room/ours") lines"
        fi
    done
done
exit $bad
