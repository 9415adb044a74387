#!/usr/bin/env bash
# Checks that the completions of bash tell commands, the option and its numbers where they stand, and that the manual pages have each status.
set -u
cd "$(dirname "$0")/.." || exit 2
source tools/completions/mibtm.bash
source tools/completions/live_board.bash
source tools/completions/desk_panel.bash
failed=0
is() {
    COMP_WORDS=("${@:2}"); COMP_CWORD=$(($# - 2)); COMPREPLY=()
    "_$2" 2>/dev/null
    [ "${COMPREPLY[*]}" = "$1" ] || { echo "${*:2}: ${COMPREPLY[*]}"; failed=1; }
}
is "check" mibtm c
is "check decode live build audit drill" mibtm ""
is "--workers" mibtm decode mib feed -
is "1 16" mibtm live mib feed desk --workers 1
is "samples" mibtm check sam
is "README.md" mibtm build samples READ
is "" mibtm build samples README.md ""
is "README.md" mibtm audit samples feed desk READ
is "" mibtm drill ""
is "board" live_board ""
is "samples" live_board board sam
is "README.md" live_board board samples feed desk READ
is "--workers" live_board board samples feed desk page -
is "" live_board board samples feed desk page ""
is "panel" desk_panel ""
is "samples" desk_panel panel sam
is "README.md" desk_panel panel samples feed desk desk desk READ
is "--workers" desk_panel panel samples feed desk -
is "" desk_panel panel samples feed desk desk desk desk ""
for status in 0 2 3 4 5 6 7 8 9 10 11 12 13 14 15 16; do grep -q "^$status  *[a-z1]" tools/mibtm.1 || { echo "status $status isn't in the manual page"; failed=1; }; done
for command in check decode live build audit drill; do
    grep -q "^\.B mibtm $command$" tools/mibtm.1 || { echo "$command isn't in the manual page"; failed=1; }
    grep -q "'$command:" tools/completions/_mibtm || { echo "$command isn't in the completions of zsh"; failed=1; }
done
for status in 0 2 3 4 5 6 7 8 9 10 11 12 13 14 15; do
    grep -q "^$status  *[a-z1]" tools/live_board.1 || { echo "status $status isn't in the manual page of live_board"; failed=1; }
done
grep -q "^\.B live_board board$" tools/live_board.1 && grep -q "'board:" tools/completions/_live_board || { echo "board isn't in the manual page and the completions of zsh"; failed=1; }
for status in 0 2 3 4 5 6 7 8 9 10 11 12; do
    grep -q "^$status  *[a-z1]" tools/desk_panel.1 || { echo "status $status isn't in the manual page of desk_panel"; failed=1; }
done
grep -q "^\.B desk_panel panel$" tools/desk_panel.1 && grep -q "'panel:" tools/completions/_desk_panel || { echo "panel isn't in the manual page and the completions of zsh"; failed=1; }
[ "$failed" -eq 0 ] && echo "completions and manual pages are as the programs' words"
exit "$failed"
