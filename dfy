#!/usr/bin/env bash
# Runs the proved program with these words, from any folder; proves and builds it first where it is missing or older
# than its sources. What is printed meanwhile, a first look by the unproved program too, stands on standard error.
# Help, the version, what a code means, and words that are no command are answered at once, without the program.
set -eu
top=$(cd "$(dirname "$(readlink -f "$0")")" && pwd)
program=$top/crates/dfy/out/dfy

is_stale() {
  [ ! -x "$program" ] || [ -n "$(find "$top"/crates/*/{src,specs,proofs} "$top/crates.txt" -newer "$program" -print -quit)" ]
}

case ${1-} in
  verify | run | build | prove | check | bulk) ;;
  -h | --help | help | --version | explain) exec "$top/tools/explain" "$@" ;;
  *)
    echo "dfy: usage" >&2 || exit 5
    [ ! -t 2 ] || echo "./dfy --help tells the commands" >&2
    exit 2
    ;;
esac
if is_stale; then
  "$top/tools/build" "$@" >&2 || exit 70
fi
exec "$program" "$@"
