#!/usr/bin/env bash
# Counts the instructions of `carton check` on plans of the examples, by valgrind's callgrind: the same number for the
# same program and files, whatever else the machine does. It runs after the gate and is no part of it.
set -u
top=$(dirname "$(dirname "$(readlink -f "${BASH_SOURCE[0]}")")")
command -v valgrind >/dev/null || { echo "valgrind isn't there"; exit 1; }
cd "$top/examples" || exit 1
"$top/carton" check flap.fold up.job up.plan >/dev/null || { echo "carton doesn't run"; exit 1; }
count() {
  counted=$(valgrind --tool=callgrind --callgrind-out-file=/dev/null "$top/crates/carton/out/carton" "$@" 2>&1 >/dev/null |
    sed -n 's/.*Collected : //p')
  echo "$* -> $("$top/carton" "$@" | head -n 1): $counted instructions"
}
count check flap.fold up.job up.plan
count check tray.fold together.job together.plan
count check tuck.fold erect.job erect.plan
count check tuck.fold close.job close.plan
