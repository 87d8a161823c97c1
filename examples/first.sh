#!/bin/sh
# Makes a file system of 64 pages and 8 inodes, runs a job on it, lists its files and checks it: the two files have equal
# pages, which they share in the end.
#
# sh examples/first.sh               proves and builds the program first, where that isn't done
# sh examples/first.sh --unproved    shows the same by builds that prove nothing, two minutes a command
set -eu
. "$(dirname "$0")/common.sh"

say format 64 8
job='create monday
write monday 0 68656c6c6f
create tuesday
write tuesday 0 68656c6c6f
read tuesday 0 64
read nobody 0 1'
run apply
say list
say check
