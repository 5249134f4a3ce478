#!/usr/bin/env bash
# Builds zfs, zpool and yuzd over the proved static library, and tries them: their own tests, and 24 hours of sanoid and syncoid over two pools where
# Debian's packages can be had. Status 1 where anything fails; what can't be tried is said as skipped.
#
#     hosts/zfs/run.sh [PACKAGES]     PACKAGES: the folder for the packages, hosts/zfs/out/packages if left out
#
# What is built and tried here has three minutes in all (ZFS_SECONDS, 180 where it isn't set), from when the library is there; then it fails.
#
# It stands on the static library that hosts/library.py makes, or on the libyuzgont_c.a in the folder YUZGONT_LIB (`bench/quick.sh` makes one in
# quick/, of which nothing is proved).
set -euo pipefail
cd "$(dirname "$0")/../.."
here=hosts/zfs
made=$here/out
packages=${1:-$made/packages}
if [ -n "${YUZGONT_LIB:-}" ]; then
    library=$(realpath -e "$YUZGONT_LIB")
else
    library=$PWD/crates/yuzgont_c/out
    python3 hosts/library.py
fi
export YUZGONT_LIB=$library
export RATTLE_C=${RATTLE_C:-$(dirname "$(readlink -f "$(command -v rt)")")/../c}
mkdir -p "$made"
began=$SECONDS
within() { # COMMAND ..: in the time that is left
    local left=$((${ZFS_SECONDS:-180} - SECONDS + began)) status=0
    timeout "$((left > 0 ? left : 1))" "$@" || status=$?
    [ $status != 124 ] || echo "more than ${ZFS_SECONDS:-180} seconds" >&2
    return $status
}

# The host is built without optimization and debug information, so that it is soon built; the library is optimized as it is.
export CARGO_PROFILE_DEV_DEBUG=0
with=(--quiet --offline --manifest-path "$here/Cargo.toml" --target-dir "$made/target")
within cargo build "${with[@]}"
mkdir -p "$made/bin"
for program in yuzd zfs; do ln -sfn "$PWD/$made/target/debug/$program" "$made/bin/$program"; done
ln -sfn "$PWD/$made/target/debug/zfs" "$made/bin/zpool"

echo "== tests"
within cargo test "${with[@]}" -- --test-threads 4

echo "== sanoid"
if ! unshare --user --map-root-user --mount true 2>/dev/null && [ "$(id -u)" != 0 ]; then
    echo "skipped: no namespaces for a root of its own"
elif timeout 60 $here/suite/fetch "$packages" tools; then
    within $here/suite/root -b "$made/bin" -p "$packages/root" "$(realpath $here/suite/sanoid)"
else
    echo "skipped: no packages"
fi
