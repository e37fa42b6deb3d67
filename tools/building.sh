# One command at a time builds in target/. To be sourced after begin.sh. Gives
#   begin_building   waits until no other command builds, and says for whom
#   find_place       sees that there is a place to build in, or says what is wrong with it
#   end_building     lets the next one build
#   take_turns FILE  waits until no other command holds FILE, and holds it to the end of this one
#   progress         passes on what rt says of each crate that it proves, from standard input to standard error
#   digest FILE..    a word that changes with the kit, with any file that the crates are made of, and with these files
#   note_proved      notes that the gate has proved the files of now, and what it has left in the crates' folders out/, where that is all its own
#   is_proved        whether that is so still, so that what stands there is of the files of now
#
# The lock is flock's, on the project's folder, so that it stays where target/ is removed. It is held by an
# open descriptor, which every command that is started here inherits, so it lasts as long as any of them does. A tool that
# is called by a holder finds the descriptor's number in CINGHJALOFA_LOCK, and sees for itself whether that is the lock.

lock=

begin_building() {
  if ! is_handed_on "${CINGHJALOFA_LOCK:-}"; then
    take_turns "$root"
    export CINGHJALOFA_LOCK=$lock
  fi
}

end_building() {
  [ -n "$lock" ] || return 0 # it is the caller's
  exec {lock}<&-
  unset CINGHJALOFA_LOCK
  lock=
}

# is_handed_on NUMBER: whether this descriptor is of the project's folder, and no other holds the lock
is_handed_on() {
  case $1 in '' | *[!0-9]*) return 1 ;; esac
  [ "/dev/fd/$1" -ef "$root" ] && flock -n "$1" 2>/dev/null
}

take_turns() {
  local patience=0.3 told='' status other words
  exec {lock}<"$1" || fail "$1 cannot be locked"
  until
    flock -E 75 -w "$patience" "$lock"
    status=$?
    [ "$status" -eq 0 ]
  do
    [ "$status" -eq 75 ] || fail "$1 cannot be locked: flock ended with status $status"
    other=$(holder "$1")
    [ -z "${CINGHJALOFA_LOCK:-}" ] || ! is_above "$other" ||
      fail "its caller, process $other, builds and has not handed on the lock, descriptor $CINGHJALOFA_LOCK"
    words=$(described "$other")
    [ "$words" = "$told" ] || say "waits for $words"
    told=$words
    patience=2
  done
}

# holder FILE: the oldest process with a descriptor that locks FILE; nothing where that is another user's
holder() {
  grep -ls "FLOCK.*:$(stat -L -c %i -- "$1") " /proc/[0-9]*/fdinfo/* | cut -d / -f 3 | sort -n | head -n 1
}

# described PROCESS: its command and its number
described() {
  local words
  words=$(tr '\0' ' ' 2>/dev/null <"/proc/${1:-none}/cmdline")
  words=${words#bash }
  words=${words//"$root/"/}
  [ -n "$words" ] && echo "\`${words% }\` (process $1)" || echo "a command of another user"
}

# is_above PROCESS: whether it is this one's caller, or that one's
is_above() {
  local at=$$
  while [ "${at:-0}" -gt 1 ]; do
    [ "$at" != "$1" ] || return 0
    at=$(sed -n 's/^PPid:[[:space:]]*//p' "/proc/$at/status" 2>/dev/null)
  done
  return 1
}

# Without these the kit says "NOT PROVED", or that a run failed.
find_place() {
  local said shut try=''
  said=$({ mkdir -p "$root/target" && echo >"$root/target/.try" && rm "$root/target/.try"; } 2>&1) ||
    fail "$root/target cannot be written: ${said##*: }"
  shut=$(find "$root/target/" ! -type l ! -writable -print -quit)
  [ -z "$shut" ] || fail "$shut cannot be written: it belongs to $(stat -c %U -- "$shut"), and this is $(id -un)"
  said=$(mktemp -d 2>&1) || fail "no file can be made in ${TMPDIR:-/tmp}, the folder for temporary files: ${said##*: }; TMPDIR may name another"
  try=$said/try
  printf '#!/bin/sh\n' >"$try" && chmod +x "$try" && "$try" 2>/dev/null || try=
  rm -rf "$said"
  [ -n "$try" ] || fail "no program can be run in ${TMPDIR:-/tmp}, the folder for temporary files (mounted noexec?); TMPDIR may name another"
}

digest() {
  {
    rt version </dev/null
    cd "$root" && find crates crates.txt \( -name must-fail -o -path 'crates/*/out' \) -prune -o -type f -print0 | LC_ALL=C sort -z | xargs -0 sha256sum
    [ $# -eq 0 ] || sha256sum "$@"
  } | sha256sum | cut -c 1-32
}

# The libraries and the programs that stand in the folders out/: of a library its `format`, which holds the sum of all that it has.
made_there() {
  local crate name file
  for crate in "$root"/crates/*/; do
    name=$(basename "$crate")
    for file in "$crate/out/rlib/$name.rlib/format" "$crate/out/$name"; do
      [ ! -f "$file" ] || sha256sum "$file"
    done
  done | sha256sum | cut -c 1-32
}

# A library with a stamp was built by another command of rt, of whatever files there were: the gate puts it back, and it is not noted.
note_proved() {
  rm -f "$root/target/proved"
  compgen -G "$root/crates/*/out/rlib/stamp" >/dev/null || echo "$(digest) $(made_there)" >"$root/target/proved"
}
is_proved() { [ -f "$root/target/proved" ] && [ "$(cat "$root/target/proved")" = "$(digest) $(made_there)" ]; }

progress() {
  local line
  while IFS= read -r line; do
    case $line in
    'rt: chose --jobs '*' for '*) tell "rt: $(sed 's/.* for //' <<<"$line") is looked at" ;;
    'rt: '*) tell "$line" ;;
    esac
  done
}
