#!/usr/bin/env bash
# Runs every check that stands outside the gate over the built programs, mibtm, live_board and desk_panel, and prints a table of what passed.
#
#     checks/run_all.sh PROGRAM BOARD PANEL [SEED]
#
# Debian's packages python3-bitstruct, tshark, python3-matplotlib, python3-rich, python3-flask, python3-waitress, chromium, parallel, socat, netcat-openbsd, mawk and xxd are used; a check whose package isn't
# there fails. Some 20 minutes on 4 processors.
set -u
program=$(readlink -f "$1"); board=$(readlink -f "$2"); panel=$(readlink -f "$3"); seed=${4:-1}
cd "$(dirname "$0")/.." || exit 2
failed=0
log=$(mktemp)
printf '%-60s %-7s %s\n' check came said
run() {
    if "$@" > "$log" 2>&1; then came=passed; else came=FAILED; failed=$((failed + 1)); fi
    shown="${*/$program/PROGRAM}"; shown="${shown/$board/BOARD}"; shown="${shown/$panel/PANEL}"
    printf '%-60s %-7s %s\n' "${shown#/usr/bin/}" "$came" "$(tail -n 1 "$log" | cut -c1-150)"
}
run checks/sample.sh "$program"
run python3 checks/rooms.py
run /usr/bin/python3 checks/raw_values.py "$program" "$seed"
run python3 checks/headers.py "$program" "$seed"
run python3 checks/curves.py "$program" "$seed" 2000
run python3 checks/drill.py "$program" "$seed" 10
run python3 checks/random_decodes.py "$program" 300 "$seed"
run python3 checks/random_lives.py "$program" 300 "$seed"
run python3 checks/random_saves.py "$program" 500 "$seed"
run /usr/bin/python3 checks/builds.py "$program" 1000 "$seed" 2
run python3 checks/audits.py "$program" 200 "$seed" 30
run python3 checks/failing_objects.py "$program" 1 2 4
run python3 checks/malicious.py "$program"
run python3 checks/refused_memory.py "$program"
run python3 checks/lints.py "$program" 2000 "$seed"
run python3 checks/replays.py "$program" 100 "$seed"
run python3 checks/helpers.py "$program"
run python3 checks/operating.py "$program"
run /usr/bin/python3 checks/tutorial.py "$program" "$board" "$panel"
run python3 checks/boards.py "$board" 300 "$seed"
run python3 checks/panels.py "$panel" "$program" 300 "$seed"
run /usr/bin/python3 checks/viewers.py
run python3 checks/archives.py "$program" parallel
run checks/completions.sh
run python3 checks/behind_faults.py "$program"
run checks/library.sh
rm -f "$log"
echo "$failed failed"
[ "$failed" -eq 0 ]
