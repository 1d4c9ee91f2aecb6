# Sourced by the scripts beside it. It goes to the top of the repository and sets `program`, `yardstick` and `work`, a folder
# that is gone when the script ends. CRNT_PROGRAM and CRNT_YARDSTICK name programs that are built; those that they do not
# name are built here. Without rustc there is no yardstick, and `yardstick` is empty.
set -eu
cd "$(dirname "$0")/.."
program=${CRNT_PROGRAM:-}
yardstick=${CRNT_YARDSTICK:-}
if [ -z "$program" ]; then
    status=0
    ./crnt </dev/null >/dev/null || status=$?
    [ $status -eq 4 ] || exit 1
    program=crates/crnt/out/crnt
fi
work=$(mktemp -d)
trap 'rm -rf "$work"' EXIT
if [ -z "$yardstick" ] && command -v rustc >/dev/null; then
    yardstick=$work/yardstick
    benches/yardstick/build "$yardstick"
fi
