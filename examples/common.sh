# What the examples share. A script sources this file with its words: `denova` then runs the program, which is proved and
# built first where that isn't done; with the word --unproved it is a build that proves nothing. `image` is a file in a
# folder that goes away in the end, and `say` runs the program with the image and shows the words.
here=$(cd "$(dirname "$0")/.." && pwd)
folder=$(mktemp -d)
trap 'rm -rf "$folder"' EXIT
image=$folder/sample.img

case ${1:-} in
--unproved)
    echo "Without proofs: what follows is run by a build that proves nothing. Each command is built anew, which takes about two minutes." >&2
    denova() {
        (cd "$here/crates/denova_cli" && rt try -- "$@" 2>"$folder/said") | grep -v -e '^checked: ' -e '^run='
    }
    ;;
'')
    denova() {
        "$here/denova" "$@"
    }
    ;;
*)
    echo "usage: sh $0 [--unproved]" >&2
    exit 2
    ;;
esac

# say COMMAND ..: shows the words, and runs them on the image.
say() {
    echo "\$ denova IMAGE $*"
    denova "$image" "$@"
}

# run COMMAND: shows a job, a line behind each `> `, and runs it on the image.
run() {
    echo "\$ denova IMAGE $1"
    echo "$job" | sed 's/^/> /'
    echo "$job" | denova "$image" "$1"
}

# hex FILE: the bytes of a file as digits.
hex() {
    od -An -v -tx1 "$1" | tr -d ' \n'
}
