#!/bin/sh
# Tries ./run as its users call it: from other folders, with spaces, with variables
# of cargo set, without cargo. It must have been built. The last line is 'run: N
# tried, M failed'.
set -u
root=$(CDPATH='' cd -- "$(dirname -- "$0")/.." && pwd)
work=$(mktemp -d)
trap 'rm -rf "$work"' EXIT
tried=0
failed=0

# expect CODE PATTERN COMMAND..: the command must end with the code, and the pattern
# must be in what it writes.
expect() {
    code=$1 pattern=$2
    shift 2
    tried=$((tried + 1))
    status=0
    "$@" >"$work/log" 2>&1 </dev/null || status=$?
    if [ "$status" -ne "$code" ] || ! grep -q -e "$pattern" "$work/log"; then
        failed=$((failed + 1))
        echo "FAILED: $* gave $status, and $code with '$pattern' was wanted"
        cat "$work/log"
    fi
}

# in_folder FOLDER COMMAND..
in_folder() {
    (cd "$1" && shift && "$@")
}

# within_a_second COMMAND..
within_a_second() {
    timeout 1 "$@"
}

# on_input FILE: the day of a file on standard input.
on_input() {
    "$root/run" - <"$1"
}

to_a_full_disk() {
    "$root/run" >/dev/full
}

to_a_reader_of_one_line() {
    "$root/run" | head -n 1
}

# without_tools COMMAND..: only what every system has is found.
without_tools() {
    PATH=$work/bin "$@"
}

mkdir "$work/bin"
for tool in cat dirname env find head mktemp readlink rm sh touch tr; do
    ln -s "$(command -v "$tool")" "$work/bin/$tool"
done

score='^score: major 1, minor 0.25$'
mkdir "$work/a folder"
cp "$root/samples/sample.txt" "$work/a folder/a day.txt"
ln -s "$root/run" "$work/link"

expect 0 "$score" within_a_second "$root/run"
expect 0 '^build$' within_a_second "$root/run" "$root/samples/full.txt"
expect 0 "$score" in_folder "$work" "$root/run" 'a folder/a day.txt'
expect 0 "$score" in_folder "$work/a folder" "$root/run" --model 'a day.txt'
expect 0 "$score" in_folder "$work/a folder" on_input 'a day.txt'
expect 0 "$score" "$work/link" "$work/a folder/a day.txt"
expect 0 "$score" env CARGO_TARGET_DIR="$work/other" "$root/run"
expect 0 "$score" without_tools "$root/run"
expect 0 '^slot 1, choice 2: 0 1$' "$root/run" --roster 2 "$root/samples/sample.txt"
expect 0 '^seat [0-9]' "$root/run" --version
expect 0 '^usage: run ' "$root/run" --help
expect 1 "there is no file 'no such file'" "$root/run" 'no such file'
expect 1 'is a folder' "$root/run" "$work/a folder"
expect 1 'is no option' "$root/run" --what
expect 1 'cannot be written' to_a_full_disk
expect 0 '^build$' to_a_reader_of_one_line

# A copy in which nothing is built, and then one with an archive alone.
mkdir -p "$work/copy/crates" "$work/copy/rust/seat" "$work/copy/rust/port"
cp "$root/run" "$root/README.md" "$root/crates.txt" "$work/copy"
cp -r "$root/samples" "$work/copy"
cp "$root/rust/Cargo.toml" "$root/rust/Cargo.lock" "$work/copy/rust"
expect 1 'rt, the Rattle kit, is not there' without_tools "$work/copy/run"
mkdir -p "$work/copy/target/staticlib"
touch "$work/copy/target/staticlib/libseating.a"
expect 1 'cargo, a Rust toolchain, is not there' without_tools "$work/copy/run"

echo "run: $tried tried, $failed failed"
[ "$failed" -eq 0 ]
