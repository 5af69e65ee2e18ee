#!/usr/bin/env bash
# Compares the files of examples/ with those of the same names among the data of the worked rows, and
# prints the name of each that differs. Status 1 if any does, or if none has the same name. It is no
# part of the gate.
set -u
top=$(dirname "$(dirname "$(readlink -f "${BASH_SOURCE[0]}")")")
same=0
differs=0
for example in "$top"/examples/*; do
  row=$top/crates/carton_rows/data/${example##*/}
  [[ -f $row ]] || continue
  if cmp -s "$example" "$row"; then
    same=$((same + 1))
  else
    echo "${example##*/} differs"
    differs=$((differs + 1))
  fi
done
echo "$same the same, $differs that differ"
((differs == 0 && same > 0))
