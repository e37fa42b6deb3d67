# What every command of the project begins with, before all else: `. FOLDER/tools/begin.sh || exit 1`, in bash. Gives
#   $root          the project's folder, by whatever path or link the command was found
#   $name          what the command calls itself when it speaks
#   say WHAT       a line on standard error, with the command's name
#   tell TEXT      a text on standard error, as it is
#   fail WHAT      says it, and ends with status 1
#   misuse WHAT [FORM]
#                  says it and shows the form that was meant, or what `usage` prints, and ends with status 2
#   print TEXT     a text on standard output; where it cannot be written, that is said, and is the end
# No end is silent, and none depends on standard error: where that is closed or full, the status still tells.

unset CDPATH # `cd` would look there first, and say where it went
self=$(readlink -f -- "$0")
name=${self##*/}
root=$(dirname -- "$(dirname -- "$(readlink -f -- "${BASH_SOURCE[0]}")")")

# A descriptor that is closed would be taken by the next file that is opened. So one that can as little be read or written
# stands in for it, and whoever uses it is told so.
[ -e /dev/fd/0 ] || exec 0>/dev/full
[ -e /dev/fd/1 ] || exec 1</dev/null
[ -e /dev/fd/2 ] || exec 2>/dev/null

# a folder named from where the caller stands
[ -z "${TMPDIR:-}" ] || export TMPDIR="$(readlink -m -- "$TMPDIR")"

# in a shell of its own, which a standard error that nobody reads may end
tell() { (printf '%s\n' "$1" >&2 2>/dev/null) || :; }

say() { tell "$name: $1"; }

fail() {
  say "$1"
  exit 1
}

misuse() {
  say "$1"
  tell "${2-$(usage)}"
  exit 2
}

print() {
  local said status=0
  { said=$({ printf '%s\n' "$1" >&3; } 2>&1) || status=$?; } 3>&1
  [ "$status" -ne 141 ] || exit 141 # whoever reads has seen enough
  [ "$status" -eq 0 ] || fail "standard output cannot be written: ${said##*: }"
}
