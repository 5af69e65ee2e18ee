#!/usr/bin/env bash
# Runs the built program on what the gate can't give it: words that aren't UTF-8, a full device, a
# closed output, too little memory. Each line that it prints is a fault; none, and status 0, if there
# is none. It runs after the gate and is no part of it.
set -u
top=$(dirname "$(dirname "$(readlink -f "${BASH_SOURCE[0]}")")")
"$top/carton" flat "$top/examples/flap.fold" 4 >/dev/null || { echo "carton doesn't run"; exit 1; }
program=$top/crates/carton/out/carton
cd "$top/examples" || exit 1
faults=0

# expect STATUS TEXT WORD..: the run with these words prints the text and ends with the status.
expect() {
  local status=$1 text=$2 printed
  shift 2
  printed=$("$program" "$@" 2>&1)
  tell "$status" $? "$text" "$printed" "$*"
}

tell() {
  [[ $1 == "$2" && $3 == "$4" ]] && return
  echo "$5: printed '$4' with status $2, expected '$3' with status $1"
  faults=1
}

expect 0 'clear 1' flat slit.fold 1
expect 1 'blocked 1 2' flat slit.fold 0
expect 2 'bad dieline: too thin panel 0' flat thin.fold 4
expect 3 'bad words' flat $'\xff' 4
expect 3 'bad words' flat slit.fold $'\xc3'
expect 3 'bad words'
expect 4 '' flat none.fold 4
expect 4 '' flat . 4

"$program" flat slit.fold 1 >/dev/full
tell 5 $? '' '' 'onto a full device'
"$program" flat slit.fold 1 >&-
tell 5 $? '' '' 'onto a closed output'

# With less and less memory the answer is the right one, and then none with status 7, until there is
# too little for the program to be loaded.
wanted=$(mktemp)
{ cat slit.fold && head -c 1000000 /dev/zero | tr '\0' ' '; } >"$wanted"
seen=' '
for ((kilobytes = 60000; kilobytes > 2000; kilobytes -= 1000)); do
  printed=$(ulimit -v "$kilobytes" && "$program" flat "$wanted" 1 2>/dev/null)
  status=$?
  case $status in
    0) tell 0 0 'clear 1' "$printed" "in $kilobytes KB" ;;
    7) tell 7 7 '' "$printed" "in $kilobytes KB" ;;
    *) break ;;
  esac
  seen+="$status "
done
rm -f "$wanted"
[[ $seen == *' 0 '*' 7 '* ]] || { echo "with less and less memory the statuses were:$seen"; faults=1; }
exit "$faults"
