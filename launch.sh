# Sourced by the launchers bend and unbend: runs the program $1 of this repository, and builds it first if it is not there.
# Ends with 0 for a line, 1 for a refusal, 2 when the system refused something, which is then said on standard error.

# A descriptor that is closed stays of no use but is open, so that no file and no pipe gets its number.
[ -e /dev/fd/0 ] || exec 0>/dev/null
[ -e /dev/fd/1 ] || exec 1</dev/null
[ -e /dev/fd/2 ] || exec 2>/dev/null

here=$(cd "$(dirname "$0")" && pwd)
if [ ! -x "$here/target/bin/$1" ]; then
    "$here/tools/build.sh" "$1" </dev/null >&2 || exit 2
fi

# a program has no status: what it printed tells. A pipe that nobody reads any more is a failure and not the end.
trap '' PIPE
text=$("$here/target/bin/$1") || { echo "$1: ended by the system" >&2; exit 2; }
[ -n "$text" ] || exit 2
printf '%s\n' "$text" 2>/dev/null || { echo 'standard output: cannot be written' >&2; exit 2; }
case $text in
    'refused '*) exit 1 ;;
esac
exit 0
