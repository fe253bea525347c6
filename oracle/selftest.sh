#!/bin/sh
# Builds both profiles and runs every check of the oracle once; status 0 if all is well.
#   oracle/selftest.sh [SEED [N [DEBUG_N]]]
# N generated and N damaged cases (5,000), and DEBUG_N accepted ones for the build with
# debug assertions (20,000). The cases are left in oracle/target/cases. With REQUESTS=2 the
# same with request 2, up to the library.
set -eu
cd "$(dirname "$0")"
SEED=${1:-1}
N=${2:-5000}
DEBUG_N=${3:-20000}
JOBS=${JOBS:-2}

cargo build --offline --release -q -j "$JOBS" --target-dir target
cargo build --offline -q -j "$JOBS" --target-dir target
O=target/release/oracle
D=target/debug/oracle
C=target/cases
mkdir -p "$C"

# Runs a command; shows its last line, or all of it where it fails.
last() {
  if "$@" > "$C/out"; then tail -1 "$C/out"; else cat "$C/out"; return 1; fi
}

echo "== worked"
$O worked
echo "== edges"
last $O edges
$O edges cases > "$C/edges"
$O worked cases > "$C/worked"
$O worst cases > "$C/worst"

echo "== cases: gen $SEED $N, mutate $SEED $N"
$O gen "$SEED" "$N" > "$C/good"
$O mutate "$SEED" "$N" > "$C/damaged"
$O cover "$C/good" "$C/damaged"
for f in good damaged worst; do
  echo "== $f: the Rust against 01's rules, the refusals twice, the model"
  $O diff "$C/$f"
  last $O why "$C/$f"
  $O model "$C/$f"
done

echo "== debug assertions: gen $((SEED + 100)) $DEBUG_N, and the cases above"
$D gen "$((SEED + 100))" "$DEBUG_N" > "$C/debug"
last $D edges
for f in debug damaged; do
  $D diff "$C/$f"
done
for f in good damaged edges worked worst; do
  $O answers "$C/$f" > "$C/$f.release"
  $D answers "$C/$f" > "$C/$f.debug"
  cmp "$C/$f.release" "$C/$f.debug"
done
echo "release and debug builds answer alike"

echo "== the library"
if [ -n "${REQUESTS:-}" ]; then
  echo "not compared: it does not know request $REQUESTS"
  echo "selftest: all well"
  exit 0
fi
for f in worked edges worst good damaged; do
  status=0
  $O compare "$C/$f" || status=$?
  case $status in
    0) ;;
    2) echo "not compared"; break ;;
    *) exit 1 ;;
  esac
done
echo "selftest: all well"
