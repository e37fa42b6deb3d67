# The one LLVM module that Rattle hands to its clang for a crate: kept on the way, as text for either kind of machine, and
# compiled by Rattle's own words. To be sourced after begin.sh and building.sh, with the project as the current folder. Gives
#   keep_module CRATE             proves the static library CRATE and leaves its archive in target/staticlib, its module as text in
#                                 target/module/CRATE/x86_64.ll, and the words that Rattle gave its clang beside it
#   keep_program CRATE            the same of a program, whose object is left in target/obj
#   rattle_words CRATE            the words by which rattle reads CRATE over the libraries that stand in the folders out/
#   retarget CRATE [KIND]         leaves the same for a kind of Arm machine, aarch64 where none is named, in target/module/CRATE/KIND.ll
#   compile CRATE KIND TEXT OBJECT [WORD..]
#                                 compiles such a text by the words kept for CRATE and those named, for a kind of machine
#   pack ARCHIVE OBJECT..         makes an archive
# $work is a folder that is gone at the end.
#
# Rattle's words are for x86-64. For Arm the module's target is replaced, and the kit's same clang compiles it, for four
# kinds of machine. The first three use no vector or floating-point register, which may hold a guest's numbers.
#   aarch64        bare: no unaligned access either, which faults while the MMU is off
#   aarch64-mmu    the MMU is on: unaligned accesses are made where they are quicker
#   aarch64-uefi   so too, as COFF, for UEFI
#   aarch64-linux  a program of Linux, which has no such bounds

triple=aarch64-unknown-none-elf
coff_triple=aarch64-unknown-windows
linux_triple=aarch64-unknown-linux-gnu

# target_of KIND: its triple; words_of KIND: what its clang is told
target_of() {
  case $1 in
  aarch64-uefi) echo "$coff_triple" ;;
  aarch64-linux) echo "$linux_triple" ;;
  *) echo "$triple" ;;
  esac
}
words_of() {
  echo "--target=$(target_of "$1")"
  [ "$1" != aarch64-linux ] || return 0
  echo -mgeneral-regs-only
  [ "$1" != aarch64 ] || echo -mstrict-align
  [ "$1" != aarch64-uefi ] || echo -mno-incremental-linker-compatible # no time of day in the object
}

# link_all FOLDER NAME TO: links to all that FOLDER has, NAME aside
link_all() {
  local entry
  mkdir -p "$3"
  for entry in "$1"/*; do
    [ "${entry##*/}" = "$2" ] || ln -s "$entry" "$3/"
  done
}

# keeping_clang CLANG FOLDER: a clang that does as CLANG does, and where it compiles a module leaves its words and the module in FOLDER
keeping_clang() {
  cat <<END
#!/bin/sh
'$1' "\$@" || exit
case " \$* " in *' ir '*) ;; *) exit ;; esac
printf '%s\n' "\$@" >'$2/words'
before=
for word in "\$@"; do
  [ "\$before" != ir ] || cp "\$word" '$2/module.bc'
  before=\$word
done
END
}

# The kit's toolchain as links, with the keeping clang in it: rattle itself then says how a crate is compiled.
make_keeping_toolchain() {
  rm -rf "$work/kept"
  mkdir "$work/kept"
  [ ! -d "$work/toolchain" ] || return 0
  link_all "$kit/toolchain" bin "$work/toolchain"
  link_all "$kit/toolchain/bin" clang "$work/toolchain/bin"
  keeping_clang "$clang" "$work/kept" >"$work/toolchain/bin/clang"
  chmod +x "$work/toolchain/bin/clang"
}

# what crates.txt has of a crate: its kind, and the libraries that it names
kind_of() { sed -n "s/^$1\( [a-z ]*\)\?:.*/\1/p" crates.txt; }
named_by() { sed -n "s/^$1\( [a-z ]*\)\?:\([^#]*\).*/\2/p" crates.txt; }

# below CRATE: the project's libraries that it stands on, each once
below() {
  awk -v crate="$1" '
    { sub(/#.*/, "") }
    /:/ { split($0, parts, ":"); split(parts[1], head, " "); named[head[1]] = parts[2] }
    END {
      ahead[1] = crate
      for (at = last = 1; at <= last; at++) {
        count = split(named[ahead[at]], found, " ")
        for (k = 1; k <= count; k++)
          if (found[k] in named && !(found[k] in seen)) { seen[found[k]]; ahead[++last] = found[k]; print found[k] }
      }
    }' crates.txt
}

rattle_words() {
  local crate=$1 each file=src/lib.rt
  [ ! -f "crates/$crate/src/main.rt" ] || file=src/main.rt
  printf '%s\n' --crate-name "$crate" "$file" --extern "std=$kit/rlibs/std.rlib" -L "dependency=$kit/rlibs"
  for each in $(named_by "$crate"); do
    if [ -d "crates/$each" ]; then
      printf '%s\n' --extern "$each=$root/crates/$each/out/rlib/$each.rlib"
    else
      printf '%s\n' --extern "$each=$kit/rlibs/$each.rlib"
    fi
  done
  for each in $(below "$crate"); do printf '%s\n' -L "dependency=$root/crates/$each/out/rlib"; done
  printf '%s\n' --antt-project "$kit/rattle/logic/antt-project.json" --logic-built "$kit/logic_built" --jobs 2 --links "$crate="
  [[ $(kind_of "$crate") != *staticlib* ]] || printf '%s\n' --crate-type staticlib
  printf '%s\n' --cpu x86-64 # what is made runs on every one, and does not look which one it is
}

# libraries_of CRATE: sees that the libraries below it stand, proved, of the files of now: those that the gate has left, or else `rt check` proves
# them, and what it keeps of the crate itself is built on
kept_work=()
libraries_of() {
  kept_work=()
  ! is_proved || return 0
  kept_work=(--incremental out/incremental)
  say "$1 and the crates below it are proved first, which takes some minutes the first time"
  (cd "crates/$1" && rt check) </dev/null 2>&1 | tee "$work/said" | progress
  [ "${PIPESTATUS[0]}" -eq 0 ] || { tell "$(cat "$work/said")"; fail "$1 is not proved: the words of rt stand above; \`rt check\` in crates/$1 repeats them"; }
}

# is_kept CRATE: rattle hands on a module only while it proves; one that is of the files of now stays as it is
is_kept() { [ "$(cat "target/module/$1/of" 2>/dev/null)" = "$(digest tools/module.sh)" ]; }

keep_module() { keep_of "$1" "target/staticlib/lib$1.a"; }
keep_program() { keep_of "$1" "target/obj/$1.o"; }

# keep_of CRATE FILE: what rattle makes of it becomes FILE
keep_of() {
  local words
  ! { is_kept "$1" && [ -f "$2" ]; } || return 0
  libraries_of "$1"
  make_keeping_toolchain
  mapfile -t words < <(rattle_words "$1")
  mkdir -p "$(dirname "$2")"
  (cd "crates/$1" && "$kit/bin/rattle" build "${words[@]}" "${kept_work[@]}" --toolchain "$work/toolchain" --backend llvm -o "$root/$2.part") >"$work/said" 2>&1 ||
    { tell "$(cat "$work/said")"; fail "$1 could not be made: the words of rattle stand above"; }
  [ -f "$work/kept/module.bc" ] || fail "rattle made $1 without handing a module to clang; is it another kit than kit-id names?"
  mv "$2.part" "$2"
  store_module "$1" "$work/kept"
}

# store_module CRATE FOLDER: what the keeping clang left there, as text
store_module() {
  local stored=target/module/$1
  mkdir -p "$stored"
  cp "$2/words" "$stored/words"
  "$clang" "$(grep '^--target=' "$stored/words")" -x ir "$2/module.bc" -S -emit-llvm -Xclang -disable-llvm-passes \
    -o "$stored/x86_64.ll" || fail "the module of $1 could not be kept: the words of clang stand above"
  digest tools/module.sh >"$stored/of"
}

declare -A own_lines=() # of each kind, the lines of a module that name its target

# Triple and data layout replaced, the x86-64 attributes dropped. For UEFI no call that probes the stack is put in, since nobody
# there has it.
retarget() {
  local kind=${2:-aarch64} layout target probe='' kept=target/module/$1
  [ -n "${own_lines[$kind]-}" ] ||
    own_lines[$kind]=$("$clang" --target="$(target_of "$kind")" -S -emit-llvm -x c /dev/null -o - | grep '^target ')
  layout=$(grep '^target datalayout' <<<"${own_lines[$kind]}")
  target=$(grep '^target triple' <<<"${own_lines[$kind]}")
  [ "$kind" != aarch64-uefi ] || probe='s/^(attributes #[0-9]+ = \{)/\1 "no-stack-arg-probe"/'
  sed -E -e "s|^target datalayout = .*|$layout|" -e "s|^target triple = .*|$target|" \
    -e 's/ "(target-cpu|target-features|tune-cpu)"="[^"]*"//g' -e "$probe" "$kept/x86_64.ll" >"$kept/$kind.ll"
  ! grep -n 'x86' "$kept/$kind.ll" | grep -v '^[0-9]*:\(; ModuleID\|source_filename\)' >&2 ||
    fail "the module of $1 says more of x86-64 than its target; the lines stand above"
}

# By the words that rattle used, those of files aside; for Arm, those of the target too.
compile() {
  local words=() word
  while IFS= read -r word; do
    case $word in
    --sysroot=* | *.bc | *.o | -x | ir | -o) ;;
    --target=* | -march=*) [ "$2" != x86_64 ] || words+=("$word") ;;
    -fPIC) [ "$2" = aarch64-uefi ] || words+=("$word") ;; # COFF code is moved by its own tables
    *) words+=("$word") ;;
    esac
  done <"target/module/$1/words"
  [ "$2" = x86_64 ] || mapfile -t -O "${#words[@]}" words < <(words_of "$2")
  "$clang" "${words[@]}" "${@:5}" -x ir "$3" -o "$4"
}

pack() {
  mkdir -p "${1%/*}"
  rm -f "$1"
  "${clang%clang}llvm-ar" rcsD "$@"
}

kit=$(tools/kit-folder)
clang=$kit/toolchain/bin/clang
[ -x "$clang" ] || fail "the kit at $kit has no clang for this machine"
work=$(mktemp -d)
chmod 711 "$work" # rt runs a program as nobody
trap 'rm -rf "$work"' EXIT
