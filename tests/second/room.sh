# Read by compare and by choices, whose words are HARNESS SEED COUNT: builds
# the second program, makes a folder for the files, and sets seed, count,
# second (the program), work (the folder) and status (0). HARNESS may be
# several words, such as an emulator and a program.
name=$(basename "$0")
here=$(cd "$(dirname "$0")" && pwd)
out=$here/../../target/second

if [ $# -lt 3 ]; then
    echo "use: $name HARNESS SEED COUNT" >&2
    exit 2
fi
harness=
while [ $# -gt 2 ]; do
    harness="$harness $1"
    shift
done
seed=$1
count=$2
program=${harness# }
program=${program%% *}
if ! command -v "$program" >/dev/null 2>&1; then
    echo "$name: $program is not there, or cannot be run" >&2
    exit 2
fi
"$here/build"
second=$out/second
work=$out/$name.$$
trap 'rm -rf "$work"' EXIT
mkdir -p "$work"
status=0

# Has the harness answer the cases in the folder.
ask_harness() {
    set -f
    $harness < "$work/cases" > "$work/harness.answers" || {
        echo "$name: the harness ended with status $?"
        status=1
    }
    set +f
}

# Ends with the status; the files stay in target/second/failed when it is not 0.
finish() {
    if [ $status -ne 0 ]; then
        rm -rf "$out/failed"
        mv "$work" "$out/failed"
        echo "$name: the files are in target/second/failed"
    fi
    exit $status
}
