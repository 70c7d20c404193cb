# What the scripts of this folder share: sourced by them. PROGRAM, COUNT and the folder that is made come first.
set -eu
here=$(CDPATH= cd -- "$(dirname -- "$0")" && pwd)
top=$(CDPATH= cd -- "$here/../.." && pwd)
program=$(readlink -f -- "${1:?give the path of the built program}")
count=${2:-20000}
folder=$(mktemp -d "${TMPDIR:-/tmp}/fleet.XXXXXX")
export PYTHONPATH="$top/python"

say() { printf '%s\n' "$*"; }

tools() { python3 -m actus "$@"; }

# Makes the portfolio, its parts, and the table of the same parts run by one process, which is what is wanted.
prepare() {
    python3 "$here/make.py" "$count" "$folder"
    tools split "$folder/all.json" "$folder/all.txt" -o "$folder/parts" --contracts "${3:-500}"
    cp -r "$folder/parts" "$folder/wanted-parts"
    tools run-parts "$folder/wanted-parts" -j 4 --program "$program"
    tools gather "$folder/wanted-parts" -o "$folder/wanted.csv" || [ $? = 8 ]
}

# Gathers what another engine has run, and compares it byte for byte.
compare() {
    tools gather "$folder/parts" -o "$folder/found.csv" || [ $? = 8 ]
    cmp "$folder/found.csv" "$folder/wanted.csv"
    say "right: $(($(wc -l < "$folder/found.csv") - 1)) rows, as of one machine"
}

# How many parts each host has run.
hosts() {
    say "parts by host: $(sed -n 's/^ "boot": "\([^ ]*\) .*/\1/p' "$folder"/parts/*/result.json | sort | uniq -c | tr '\n' ' ')"
}
