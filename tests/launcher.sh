#!/usr/bin/env bash
# Tests `rinv`, the launcher, with a fake `rt` in a copy of the tree: nothing is proved here.
set -u
top=$(cd "$(dirname "${BASH_SOURCE[0]}")/.." && pwd)
work=$(mktemp -d)
trap 'rm -rf "$work"' EXIT
failures=0

check() { # NAME CONDITION..
  local name=$1
  shift
  if "$@"; then
    printf 'ok: %s\n' "$name"
  else
    printf 'FAILED: %s\n' "$name"
    failures=$((failures + 1))
  fi
}

# A copy of the launcher, of crates.txt, and of the crates' folders with a file each.
mkdir -p "$work/tree" "$work/bin"
cp "$top/rinv" "$top/crates.txt" "$work/tree/"
for crate in "$top"/crates/*/; do
  name=$(basename "$crate")
  mkdir -p "$work/tree/crates/$name/src"
  : >"$work/tree/crates/$name/src/lib.rt"
done

# The fake: it notes when a crate begins and ends, fails where it is told to, and makes a program that tells its words
# and its input and ends with status 3.
cat >"$work/bin/rt" <<'FAKE'
#!/usr/bin/env bash
crate=$(basename "$PWD")
echo "begin $crate $1" >>"$NOTES"
mkdir -p out
trap 'kill $(jobs -p) 2>/dev/null; echo "cut $crate" >>"$NOTES"; exit 143' TERM
sleep "${PAUSE:-0.02}" &
wait
if [ "${FAILS:-}" = "$crate" ]; then
  echo 'note: not proved'
  exit 1
fi
if [ "$1" = run ]; then
  cat >out/rinv_app <<'PROGRAM'
#!/usr/bin/env bash
[ "$1" = long ] && exec head -c 100000 /dev/zero
echo "words: $*"
cat
exit 3
PROGRAM
  chmod +x out/rinv_app
fi
echo "end $crate" >>"$NOTES"
[ "$1" = lib ] || exit 2
FAKE
chmod +x "$work/bin/rt"
export NOTES=$work/notes PATH=$work/bin:$PATH RINV_JOBS=3

# Runs the launcher with these words on the input `bytes`.
run() {
  : >"$NOTES"
  printf 'bytes' | "$work/tree/rinv" "$@" >"$work/out" 2>"$work/err"
  status=$?
}

told() { [ "$(cat "$work/out")" = "words: $1"$'\n'"bytes" ] && [ "$status" = 3 ]; }
is_quiet() { [ ! -s "$NOTES" ] && [ ! -s "$work/err" ]; }
stands_below() { awk -F: -v name="$1" '$1 == name { print $2 }' "$work/tree/crates.txt"; }

# Each crate begins once, when all of this repository that it stands on has ended, and at most three are at work.
is_in_order() {
  local kind crate below at_work=0
  declare -A ended=() begun=()
  while read -r kind crate _; do
    if [ "$kind" = begin ]; then
      [ -z "${begun[$crate]-}" ] || return 1
      begun[$crate]=1
      at_work=$((at_work + 1))
      [ $at_work -le 3 ] || return 1
      for below in $(stands_below "$crate"); do
        [ ! -d "$work/tree/crates/$below" ] || [ -n "${ended[$below]-}" ] || return 1
      done
    else
      ended[$crate]=1
      at_work=$((at_work - 1))
    fi
  done <"$NOTES"
  [ -n "${ended[rinv_app]-}" ]
}

is_counted() {
  local total
  total=$(grep -c '^begin' "$NOTES")
  [ "$(grep -c '^rinv: proved ' "$work/err")" = "$total" ] &&
    [ "$(tail -1 "$work/err")" = "rinv: proved rinv_app, $total of $total" ]
}

run laws
check 'a first call builds, and runs the program on its words and input' told laws
check 'crates are proved in order, each once, as many at once as is said' is_in_order
check 'each proved crate has a line with its number' is_counted
check 'crates of tests are not proved' test -z "$(grep _tests "$NOTES")"

run check more
check 'a second call runs the program alone' told 'check more'
check 'and says nothing' is_quiet

(ulimit -f 8 && "$work/tree/rinv" long >"$work/long" 2>/dev/null)
check 'past a limit on the size of files a write fails, and no signal comes' test $? = 1

touch "$work/tree/crates/rinv_serve_tests/src/lib.rt"
run laws
check 'what the program does not stand on is no reason to build' is_quiet

touch "$work/tree/crates/rinv_poly/src/lib.rt"
run laws
check 'a newer source is' test -s "$NOTES"
check 'and the program runs' told laws

rm "$work/tree/crates/rinv_mono/src/lib.rt"
run laws
check 'so is a file that is gone' test -s "$NOTES"

touch "$work/tree/crates/rinv_io/src/lib.rt"
FAILS=rinv_sub run laws
check 'a crate that is not proved ends the build with status 70' test $status = 70
check 'and is named, with its log' grep -q 'rinv_sub is not proved; the log is /' "$work/err"
check 'and the program does not run' test ! -s "$work/out"
check 'and what stands on it is not begun' test -z "$(grep 'begin rinv_laws' "$NOTES")"
run laws
check 'the next call goes on' told laws

touch "$work/tree/crates/rinv_io/src/lib.rt"
: >"$NOTES"
PAUSE=20 "$work/tree/rinv" laws </dev/null >"$work/out" 2>"$work/err" &
launcher=$!
sleep 1
kill -TERM $launcher
wait $launcher
check 'a build that is ended from outside has status 143' test $? = 143
check 'and leaves nothing at work' test "$(grep -c '^begin' "$NOTES")" = "$(grep -c '^cut' "$NOTES")"

PATH=/usr/bin:/bin run laws
check 'without rt it says so' grep -q 'rt, the command of the Rattle kit' "$work/err"
check 'and ends with status 70' test $status = 70

[ $failures = 0 ] || printf '%s failed\n' "$failures"
[ $failures = 0 ]
