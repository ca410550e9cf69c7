# The crates of crates.txt that a program stands on, lowest first, and then its own:
#   awk -v program=asm_cli -f tools/stands_on.awk crates.txt
function tell(crate,   below, count, i) {
    if (!(crate in line) || crate in told) return
    told[crate]
    count = split(line[crate], below, " ")
    for (i = 1; i <= count; i++) tell(below[i])
    print crate
}
/^[a-z]/ { split($0, halves, ":"); line[halves[1]] = halves[2] }
END { tell(program) }
