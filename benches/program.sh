#!/bin/sh
# Times the program `denova` over image files:
#
#     sh benches/program.sh [OTHER]
#
# Each line is a call: its processor time and the most memory that it held. With OTHER, the path of another program that takes
# the same words, the same calls are timed with it. `./denova` is proved and built first where that isn't done.
set -eu
top=$(cd "$(dirname "$0")/.." && pwd)
folder=$(mktemp -d)
trap 'rm -rf "$folder"' EXIT
"$top/denova" "$folder/none.img" format 64 8 >/dev/null

# A job that makes so many files, and writes so many pages into each, a page by a write: of four pages three are equal to many
# others.
files_job() {
    awk -v files="$1" -v each="$2" 'BEGIN {
        for (f = 0; f < files; f++) {
            print "create f" f
            for (p = 0; p < each; p++) {
                at = f * each + p
                kind = at % 4 == 0 ? 1000 + at : at % 4
                printf "write f%d %d %016x\n", f, 4096 * p, kind
            }
        }
    }'
}

# timed PROGRAM NAME IMAGE COMMAND ..: runs a call, with the job on standard input, and tells what it took.
timed() {
    program=$1
    name=$2
    image=$3
    shift 3
    /usr/bin/env python3 - "$program" "$name" "$image" "$folder/job" "$@" <<'PY'
import resource, subprocess, sys
program, name, image, job, *words = sys.argv[1:]
with open(job, "rb") as given:
    status = subprocess.run([program, image, *words], stdin=given, stdout=subprocess.DEVNULL).returncode
used = resource.getrusage(resource.RUSAGE_CHILDREN)
print(f"{name:<44} {used.ru_utime + used.ru_stime:8.2f} s {used.ru_maxrss // 1024:6} MiB  status {status}", flush=True)
PY
}

# work PROGRAM PAGES INODES OPERATIONS: times generated work on a new image.
work() {
    "$1" "$folder/work.img" format "$2" "$3" >/dev/null
    : >"$folder/job"
    timed "$1" "work $4, $2 pages" "$folder/work.img" work "$4"
}

# files PROGRAM PAGES INODES FILES EACH: times a job of so many files on a new image, and what reads the image then.
files() {
    "$1" "$folder/files.img" format "$2" "$3" >/dev/null
    files_job "$4" "$5" >"$folder/job"
    timed "$1" "apply, $4 files of $5 pages, $2 pages" "$folder/files.img" apply
    echo bad >"$folder/job"
    timed "$1" "  open: apply of a bad line" "$folder/files.img" apply
    : >"$folder/job"
    timed "$1" "  mount: apply of nothing" "$folder/files.img" apply
    timed "$1" "  list" "$folder/files.img" list
    timed "$1" "  check" "$folder/files.img" check
}

# threads PROGRAM PAGES INODES FILES EACH CLIENTS: times the same job by clients in threads, each of which makes files of its
# own, and by one client.
threads() {
    files_job "$4" "$5" | awk -v clients="$6" '{
        file = substr($2, 2) % clients + 1
        if (file != client) { client = file; print "client " client }
        print
    }' >"$folder/clients"
    "$1" "$folder/threads.img" format "$2" "$3" >/dev/null
    cp "$folder/clients" "$folder/job"
    timed "$1" "run, $4 files of $5 pages, $6 clients" "$folder/threads.img" run
    "$1" "$folder/threads.img" format "$2" "$3" >/dev/null
    grep -v "^client" "$folder/clients" >"$folder/job"
    timed "$1" "  apply of the same" "$folder/threads.img" apply
}

# all PROGRAM: times the calls of one program.
all() {
    echo "$1"
    work "$1" 1024 64 3000
    work "$1" 65536 4096 100000
    files "$1" 4096 128 64 32
    files "$1" 16384 128 64 128
    files "$1" 32768 128 64 256
    files "$1" 65536 128 64 512
    files "$1" 4096 1024 1000 1
    files "$1" 16384 4096 4000 1
    files "$1" 65536 4096 4000 1
    threads "$1" 16384 128 64 128 1
    threads "$1" 16384 128 64 128 4
    threads "$1" 16384 128 64 128 14
}

echo "processor time and memory of calls, $(date -u +%Y-%m-%dT%H:%MZ); $(uptime)"
all "$top/denova"
if [ $# -gt 0 ]; then
    all "$1"
fi
echo "after: $(uptime)"
