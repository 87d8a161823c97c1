#!/bin/sh
# Runs the scripts of two clients by a schedule: client 2 reads while the write of client 1 is in flight, and sees the file
# as it was.
set -eu
. "$(dirname "$0")/common.sh"

say format 64 8
job='create f
write f 0 61616161'
run apply
job='client 1
write f 0 62626262
client 2
read f 0 4
turns 1 1 2 1'
run replay
say cat f
echo
