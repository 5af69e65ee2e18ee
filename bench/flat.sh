#!/usr/bin/env bash
# Times `carton flat` on two valid dielines of 1 MiB against CPython's json.load of the same file in
# the same run, and tells carton's peak memory: one dieline is nearly all keys that are passed over,
# one has 1024 vertices and 2048 edges and is filled up in the same way. Then it times a dieline of
# 24 faces with 32 vertices each. It runs after the gate and is no part of it.
set -u
top=$(dirname "$(dirname "$(readlink -f "${BASH_SOURCE[0]}")")")
"$top/carton" flat "$top/examples/flap.fold" 4 >/dev/null || { echo "carton doesn't run"; exit 1; }
exec python3 "$top/bench/flat.py" "$top/crates/carton/out/carton"
