#!/usr/bin/env bash
# Builds the hosts in C, Rust and Python over the static library, and runs them: the session of the README, each call, so many writes, streams,
# refused memory, mistakes, a backup over a connection, what `make install` installs, the tests of the Python package, and receives in each mode,
# destroys of several snapshots and renames beside the plain machine. The library is brought up to date first, which proves what has changed
# (hosts/library.py). Status 1 where anything fails.
#
#     hosts/run.sh [WRITES]                   how many writes are timed, 1,000,000 if left out
#     YUZGONT_LIB=quick hosts/run.sh          over the libyuzgont_c.a of that folder, as bench/quick.sh makes it: nothing of it is proved
set -euo pipefail
cd "$(dirname "$0")/.."
writes=${1:-1000000}
made=hosts/out
kit=$(dirname "$(readlink -f "$(command -v rt)")")/..
zfsp=${YUZGONT_LIB:-crates/zfsp/out}/zfsp
mkdir -p "$made"
if [ -n "${YUZGONT_LIB:-}" ]; then
    echo "== the library of $YUZGONT_LIB, which may not be proved"
else
    python3 hosts/library.py
fi
YUZGONT_LIB=$(readlink -f "${YUZGONT_LIB:-crates/yuzgont_c/out}")
export YUZGONT_LIB RATTLE_C=$kit/c
library=$YUZGONT_LIB/libyuzgont_c.a
[ -e "$library" ] || { echo "there is no $library" >&2; exit 1; }

for host in host typed; do
    cc -std=c11 -D_GNU_SOURCE -O2 -g -Wall -Wextra -Wpedantic -Werror -I include -o "$made/$host" "hosts/c/$host.c" "$library" "$RATTLE_C/liblibc_c.a" \
        -Wl,--gc-sections -Wl,--wrap=malloc,--wrap=realloc
done
cargo build --quiet --release --offline --manifest-path hosts/rust/Cargo.toml --target-dir "$made/rust"
rust=$made/rust/release

# The linker leaves out what nothing calls, so hosts of a language in which each export stands call each.
exports() { nm --defined-only "$@" 2>/dev/null | sed -n 's/.* T \(yuzgont_[a-z_0-9]*\)$/\1/p' | sort -u; }
every=$(exports "$library")
[ -n "$every" ]

diff <(echo "$every") <(exports "$made/host" "$made/typed")
diff <(echo "$every") <(exports "$rust/yuz-host" "$rust/yuz-typed")
for host in "$made/host" "$rust/yuz-host"; do
    echo "== $host"
    "$host" session hosts/session.script hosts/session.replies
    "$host" calls
    "$host" streams
    "$host" memory
    "$host" writes "$writes"
done
"$made/host" mistakes
"$made/typed"
"$rust/yuz-typed"
"$rust/yuz-host" threads

echo "== make check"
make --quiet -C hosts check

echo "== python"
(cd hosts/python && python3 -m unittest discover --quiet --start-directory tests)

echo "== receives in each mode, destroys of several snapshots, and renames"
python3 bench/receives.py --pools 50 --requests 150

# The same writes as lines, to the program.
if [ -x "$zfsp" ]; then
    echo "== $zfsp"
    python3 hosts/writes.py "$writes" >"$made/writes.script"
    TIMEFORMAT="writes: $writes as lines in %R s"
    time "$zfsp" 4194304 1 "$made/writes.script" >"$made/writes.replies"
    [ "$(sort -u "$made/writes.replies")" = ok ]
fi

echo "== valgrind"
for words in "host session hosts/session.script hosts/session.replies" "host calls" "host streams" "host memory" "host mistakes" typed "host writes 3000" \
    "rust/release/yuz-host session hosts/session.script hosts/session.replies" "rust/release/yuz-host calls" "rust/release/yuz-typed" "rust/release/yuz-host streams" "rust/release/yuz-host threads"; do
    valgrind --quiet --error-exitcode=9 --leak-check=full --show-leak-kinds=definite,indirect --errors-for-leak-kinds=definite,indirect $made/$words >/dev/null
    echo "clean: $words"
done

echo "== yuz-replicate"
timeout 60 "$rust/yuz-replicate" try
