# Runs the check program on one input: check_program.sh CASE. A case is a shell script that writes
# the input to standard output; its first line says, after "# ", the line that the program has to
# print. Files are compared, since $(...) would drop ends of lines.
set -eu
cd "$(dirname "$0")/.."
work=$(mktemp -d)
trap 'rm -rf "$work"' EXIT
sed -n '1s/^# //p' "$1" > "$work/wanted"
[ -s "$work/wanted" ] || { echo "$1 doesn't say what is wanted"; exit 1; }
sh "$1" | crates/check_cache/out/check_cache > "$work/printed"
diff "$work/wanted" "$work/printed"
