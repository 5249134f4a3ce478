#!/usr/bin/env bash
# Makes zfsp and the static library for C of the sources as they stand, without any proof: bench/quick.py says how, and what they are not.
#
#     bench/quick.sh [FOLDER]     quick/ of this repository if left out; it gets zfsp, libyuzgont_c.a and yuzgont.h
set -euo pipefail
command -v rt >/dev/null || { echo "quick: the Rattle toolchain's command rt is not on the path" >&2; exit 2; }
exec python3 "$(dirname "$0")/quick.py" "$@"
