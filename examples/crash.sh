#!/bin/sh
# Tries what a crash leaves of a renaming onto a file: on a copy of the image, after some of the calls that the program
# makes of its device, and with some of the words that were not durable yet. Each list is that of before or of after.
set -eu
. "$(dirname "$0")/common.sh"

say format 64 8
job='create old
write old 0 6f6c64
create new
write new 0 6e6577'
run apply
job='rename new old'
# the calls of the device before the crash, and which of the images that may be left then
for moment in '0 0' '17 1' '18 0' '18 1' '1000 0'; do
    echo "\$ denova IMAGE trial $moment"
    echo "$job" | denova "$image" trial $moment
done
