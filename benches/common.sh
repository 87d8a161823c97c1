# What the benches share. A bench sources this file, calls `begin_bench` with the crates that its program uses, writes
# the program into src/ and calls `run_bench`.
#
# The program is written into a copy of the crates and run without a proof, so it is no part of the repository's crates.
set -eu
rounds=${1:-3}
case $rounds in
'' | *[!0-9]* | 0*)
    echo "usage: sh $0 [ROUNDS]" >&2
    exit 2
    ;;
esac
# the seconds after which the run is given up
limit=1200
top=$(cd "$(dirname "$0")/.." && pwd)
copy=$(mktemp -d)
trap 'rm -rf "$copy"' EXIT
trap 'exit 1' HUP INT PIPE TERM

# Copies the crates, adds one named bench over those that are given, and goes to its folder.
begin_bench() {
    mkdir "$copy/crates"
    for crate in "$top"/crates/*; do
        name=$(basename "$crate")
        mkdir "$copy/crates/$name"
        for part in src specs proofs; do
            if [ -d "$crate/$part" ]; then
                cp -R "$crate/$part" "$copy/crates/$name/"
            fi
        done
    done
    cp "$top/HANDLES" "$copy/"
    cp "$top/crates.txt" "$copy/"
    echo "bench: $*" >>"$copy/crates.txt"
    mkdir -p "$copy/crates/bench/src"
    cd "$copy/crates/bench"
    write_trials
}

# Writes the module of the program that reads its words.
write_trials() {
    cat >src/trials.rt <<'END'
// The words that a bench is run with.
use anyhow::Result;
use std::env;
use std::rt::Env;

// How often each trial is made.
pub(crate) fn rounds(rt: &(impl Env + AllocGlobal)) -> Result<u64> {
    match env::args(rt)?.nth(1) {
        Some(word) => Ok(word.parse::<u64>()?),
        None => Ok(1),
    }
}
END
}

# Runs the program, which is given the number of trials. Each argument is a line that explains its columns.
run_bench() {
    echo "processor time in a build with checks, $(date -u +%Y-%m-%dT%H:%MZ), least of $rounds"
    for line in "$@"; do
        echo "$line"
    done
    echo "before: $(uptime)"
    nice -n 10 rt try --seconds "$limit" -- "$rounds"
    echo "after: $(uptime)"
}
