# Sourced by .ci/examples and .ci/rows: finds the program, argument 1 or crates/gambit/out/gambit, puts it on the PATH as `gambit`, and
# goes to the top of the repository.
script=$(basename "$0")
top=$(cd "$(dirname "$0")/.." && pwd) || exit 1
program=$(realpath -m "${1:-$top/crates/gambit/out/gambit}")
cd "$top" || exit 1
[ -x "$program" ] || { echo "$script: there is no program $program (rt ci leaves one in crates/gambit/out)"; exit 1; }
work=$(mktemp -d) || exit 1
trap 'rm -rf "$work"' EXIT
ln -s "$program" "$work/gambit" || exit 1
PATH=$work:$PATH
failed=0
breach() { echo "$script: $*"; failed=1; }

# Runs the command $1: what it prints, its line on standard error, and its status in brackets where it is not 0.
shown() {
    local status=0
    timeout 20 bash -c "$1" < /dev/null > "$work/out" 2> "$work/err" || status=$?
    cat "$work/out" "$work/err"
    ! grep '^gambit: ' "$work/out" || echo "(refused on standard output)"
    ! grep -v '^gambit: ' "$work/err" || echo "(no refusal on standard error)"
    [ "$status" -eq 0 ] || echo "[$status]"
}

# The file $1 has to be what $work/again has now.
compare() { diff -u --label "$1" --label "$1, run" "$1" "$work/again" || breach "$1 differs"; }
