#!/usr/bin/env bash
# Counts the instructions of `carton plan` on the examples, of `carton check` on the plans that it prints, of a clearance, of
# `carton make 60` and of a fixture of 256 candidates, by
# valgrind's callgrind: the same number for the same program and files, whatever else the machine does. Beside them
# stands the peak memory of a run without valgrind. It runs after the gate and is no part of it.
set -u
top=$(dirname "$(dirname "$(readlink -f "${BASH_SOURCE[0]}")")")
command -v valgrind >/dev/null || { echo "valgrind isn't there"; exit 1; }
[[ -x /usr/bin/time ]] || { echo "/usr/bin/time isn't there"; exit 1; }
cd "$top/examples" || exit 1
"$top/carton" plan flap.fold up.job >/dev/null || { echo "carton doesn't run"; exit 1; }
program=$top/crates/carton/out/carton
room=$(mktemp -d) || exit 1
trap 'rm -rf "$room"' EXIT
plan=$room/plan
peak_file=$room/peak

instructions() {
  valgrind --tool=callgrind --callgrind-out-file=/dev/null "$program" "$@" 2>&1 >/dev/null | sed -n 's/.*Collected : //p'
}
# The greatest resident size in KiB, by the system's own count of a finished child.
peak() {
  /usr/bin/time -f %M -o "$peak_file" "$program" "$@" >/dev/null
  tail -n 1 "$peak_file"
}
measure() {
  echo "plan $*: $(instructions plan "$@") instructions, $(peak plan "$@") KiB"
  "$program" plan "$@" >"$plan" || return
  echo "check $* of its plan: $("$program" check "$@" "$plan"), $(instructions check "$@" "$plan") instructions"
}
measure tuck.fold erect.job
measure tuck.fold close.job
measure tray.fold single.job
measure rte.fold rte_close.job
measure six.fold six_lid.job
echo "clearance tuck.fold erect.job erect.plan: $(instructions clearance tuck.fold erect.job erect.plan) instructions"
echo "make 60: $("$program" make 60 | tail -n 1), $(instructions make 60) instructions"

# The plan of close.job with the upper dust flap of the side wall guided in its first move, and 256 candidates: two rows of 128 bars,
# below and above the flap, each bar a unit lower than the one before.
printf 'carton catalogue 1\nstroke 0 0 -40\nrow 128 0 0 -1 215 235 355 366 48 95\nrow 128 0 0 -1 152 169 346 360 48 95\nguide 4 0 0 2 250 366\nend\n' >"$room/many.catalogue"
echo "fixture of 256 candidates: $("$program" fixture tuck.fold close.job close.plan "$room/many.catalogue" | head -n 1), $(instructions fixture tuck.fold close.job close.plan "$room/many.catalogue") instructions"

# A search that tries 100,000 states and stops: four flaps, each a team, on the finer grid.
printf 'carton job 2 16 1\nmargin 4\ntarget 0 16\ntarget 1 32\ntarget 2 16\ntarget 3 32\nend\n' >"$room/many.job"
printf 'carton job 2 16 1\nmargin 4\ntarget 0 16\ntarget 1 32\ntarget 2 16\ntarget 3 32\nturns 1\nend\n' >"$room/one.job"
many=$(peak plan tray.fold "$room/many.job")
one=$(peak plan tray.fold "$room/one.job")
echo "100000 states tried: $many KiB, $(((many - one) * 1024 / 100000)) bytes for each"
