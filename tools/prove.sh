#!/usr/bin/env bash
# Proves crates, of which the last is a program, and puts the program, as LLVM builds it, at OUT:
#   tools/prove.sh OUT LOG CRATE..
# It is done by `rt ci`, in a copy of the crates without must-fail/. An rt that keeps
# the proofs of unchanged crates, by the sums of their files, does not make them again in a later run here, or of the
# whole gate. The copy stands outside the repository, where `rt ci` would refuse a second crates.txt.
set -euo pipefail
out=$1 log=$2 program=${!#}
shift 2
copy=$(mktemp -d)
trap 'rm -rf "$copy"' EXIT
mkdir "$copy/.git" "$copy/crates"
cp HANDLES "$copy/"
for crate; do
  grep "^$crate:" crates.txt >>"$copy/crates.txt"
  mkdir "$copy/crates/$crate"
  find "crates/$crate" -mindepth 1 -maxdepth 1 ! -name out ! -name must-fail -exec cp -R -t "$copy/crates/$crate" {} +
done
left=$#
echo "$left crates are to be proved, or are kept"
(cd "$copy" && rt ci) 2>&1 | sed -u "s#$copy/##g" | tee "$log" | grep -E --line-buffered '^rt: [a-z0-9_]+ (proved$|is kept)' |
  while read -r _ crate _; do left=$((left - 1)); echo "proved $crate, $left left"; done ||
  { tail -n 40 "$log" >&2; echo "the end of $log" >&2; exit 1; }
cp "$copy/crates/$program/out/$program" "$out"
