#!/usr/bin/env bash
# Runs the program with these words, standard input and status. Where the built program is missing or older than the
# sources, the kit's command rt proves and builds it first.
set -u
top=$(cd "$(dirname "$(readlink -f "$0")")" && pwd)
program=$top/crates/vrx_program/out/vrx_program

stale() {
  [ ! -x "$program" ] || [ -n "$(find "$top/crates" "$top/crates.txt" -name out -prune -o \
    \( -name '*.rt' -o -name '*.antt' -o -name crates.txt \) -newer "$program" -print -quit)" ]
}

if stale; then
  if ! command -v rt >/dev/null 2>&1; then
    echo "vrx: the program isn't built, and the kit's command rt, which builds it, isn't on the PATH" >&2
    exit 127
  fi
  echo "vrx: building the program (its first proof takes about a quarter of an hour)" >&2
  # Settings alone are a call without events: the program has nothing to say to them, and ends with status 0.
  if ! printf 'vrx 1 codec=vp8 ssrc=00000001 pt=96 from=00000002\n' \
    | (cd "$top/crates/vrx_program" && rt run -- replay) >"$top/vrx.log" 2>&1; then
    echo "vrx: the program could not be built; vrx.log has what rt said" >&2
    exit 127
  fi
  touch "$program"
fi
exec "$program" "$@"
