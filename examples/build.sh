#!/bin/sh
# Proves the program and the crates below it, as many side by side as there are processors, and builds it. Says each
# crate as it is done. A crate that is proved already and hasn't changed takes no time.
set -eu
top=$(cd "$(dirname "$0")/.." && pwd)
cd "$top"
logs=$(mktemp -d)
trap 'rm -rf "$logs"' EXIT
jobs=$(nproc 2>/dev/null || echo 2)

# The crates that a crate stands on, and it itself, each behind those that it uses: crates.txt has them in this order.
crates_of() {
    grep -v -e '^#' -e '^$' crates.txt | tac | awk -v top="$1" '
        BEGIN { need[top] = 1 }
        { split($0, half, ":"); split(half[1], words, " ") }
        need[words[1]] { print words[1]; n = split(half[2], deps, " "); for (i = 1; i <= n; i++) need[deps[i]] = 1 }' | tac
}

prove_one() {
    if (cd "crates/$1" && rt lib) >"$logs/$1" 2>&1; then
        echo "$1"
    else
        echo "$1 isn't proved:" >&2
        tail -n 20 "$logs/$1" >&2
        return 1
    fi
}

if [ "${1:-}" = --one ]; then
    logs=$3
    trap - EXIT
    prove_one "$2"
    exit
fi

names=$(crates_of denova_cli | sed '$d')
count=$(($(echo "$names" | wc -l) + 1))
echo "Proving and building $count crates with $jobs processors; the first time takes about forty minutes on four processors."
k=0
echo "$names" | xargs -P "$jobs" -I NAME sh "$0" --one NAME "$logs" | while read -r name; do
    k=$((k + 1))
    echo "$k of $count: $name"
done
# without words the program writes its usage and ends with 1, so the file that the build leaves is what counts
program=crates/denova_cli/out/denova_cli
(cd crates/denova_cli && rt run >"$logs/denova_cli" 2>&1 </dev/null) || true
if [ ! -x "$program" ]; then
    tail -n 20 "$logs/denova_cli" >&2
    echo "denova: cannot build the program" >&2
    exit 1
fi
touch "$program"
echo "$count of $count: denova_cli"
