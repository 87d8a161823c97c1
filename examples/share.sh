#!/bin/sh
# Stores two directories that differ in one page, and shows what they share: each row of the last text is a page with the
# number of its uses.
set -eu
. "$(dirname "$0")/common.sh"

# Two days of a diary, of three pages each. The second day's last page is another one.
for day in monday tuesday; do
    mkdir "$folder/$day"
    for k in 1 2 3; do
        head -c 4096 /dev/zero | tr '\0' "$k" >>"$folder/$day/diary"
    done
done
head -c 4096 /dev/zero | tr '\0' x >>"$folder/tuesday/diary"

say format 64 8
for day in monday tuesday; do
    echo "create $day/diary" | tr / -
    echo "write $day/diary 0 $(hex "$folder/$day/diary")" | tr / -
done >"$folder/job"
echo "\$ denova IMAGE apply"
denova "$image" apply <"$folder/job"
say list
say check
