#!/bin/sh
# Whether the README's example, and what each other example is to write, are just what they write. The gate has proved and
# built the program by then.
set -eu
here=$(cd "$(dirname "$0")/.." && pwd)

# same NAME WANTED: compares what an example writes.
same() {
    shown=$(sh "$here/examples/$1")
    if [ "$2" != "$shown" ]; then
        echo "examples/$1 doesn't write what is told:" >&2
        echo "$shown" >&2
        exit 1
    fi
    echo "examples/$1 writes what is told"
}

told=$(sed -n '/^    \$ sh examples\/first\.sh$/,/^$/p' "$here/README.md" | sed -e 1d -e '/^$/d' -e 's/^    //')
same first.sh "$told"
for name in share crash turns; do
    same $name.sh "$(cat "$here/examples/$name.txt")"
done
