# Which program ./chor runs, and how one comes to be: sourced by ./chor and tools/chor/prove, which set `top`.
#
# What was proved is known by a checksum of all that the prover reads. It is written beside the program once all crates
# are proved and the program is built; a program with another checksum counts for nothing, and file times don't matter.

out=$top/crates/chor/out
proved=$out/chor
unproved=$out/unproved
progress=$out/proving.log
details=$out/proving.details
lock=$out/proving.lock
failed=$out/proving.failed

say() { echo "chor: $*" >&2; }

# The checksum of the list of crates, the handles and the sources of all crates. Other files there don't count.
sources() {
  (
    cd "$top" || exit
    {
      printf '%s\0' crates.txt HANDLES
      find crates/*/{src,specs,proofs} -type f ! -name '.*' \
        \( -name '*.rt' -o -name '*.antt' -o -name '*.toml' -o -name 'BUILD*' \) -print0 2>/dev/null
    } | LC_ALL=C sort -z | xargs -0 sha256sum 2>/dev/null | sha256sum | cut -d ' ' -f 1
  )
}

# The line beside a program: the checksum of the sources, given as $2, and that of the program itself.
stamp_of() { echo "$2 $(sha256sum <"$1" | cut -d ' ' -f 1)"; }

# Whether a program is there and was made from the sources with this checksum.
is_made_from() { [ -x "$1" ] && [ -e "$1.sources" ] && [ "$(cat "$1.sources")" = "$(stamp_of "$1" "$2")" ]; }

has_toolchain() { command -v rt >/dev/null; }

say_toolchain_is_missing() {
  say "the toolchain's command rt isn't on the PATH; rattle-kit-13f is needed to build and prove the program"
}

# Replaces a program of the toolchain at $1/toolchain/bin/$2 by a script.
replace_tool() {
  rm "$1/toolchain/bin/$2"
  cat >"$1/toolchain/bin/$2"
  chmod +x "$1/toolchain/bin/$2"
}

# The toolchain by links in the folder $1, but for three programs: the compiler leaves out its checks of memory, which take
# a third of its time; the prover does nothing, which has no part in a build without proofs; the linker leaves out the archive
# that these checks need, which is the one that it is to take whole, and leaves a copy of the program at $2.
quick_toolchain() {
  local kit each
  kit=$(dirname "$(rt doc)") && mkdir -p "$1/bin" "$1/toolchain/bin" || return 1
  for each in "$kit"/* "$kit"/bin/* "$kit"/toolchain/* "$kit"/toolchain/bin/*; do
    [ -e "$1/${each#"$kit/"}" ] || ln -s "$each" "$1/${each#"$kit/"}" || return 1
  done
  # These look for the rest beside themselves.
  cp --remove-destination "$kit"/bin/rt "$kit"/bin/rtlib.py "$1/bin" || return 1
  rm "$1/bin/rattle" && printf '#!%s\n' "$BASH" >"$1/bin/rattle" && chmod +x "$1/bin/rattle" || return 1
  printf '#!%s\nexec %q "${@/#-fsanitize=address/-O0}"\n' "$BASH" "$kit/toolchain/bin/clang" | replace_tool "$1" clang
  replace_tool "$1" ld.lld <<END
#!$BASH
words=() whole=
for word in "\$@"; do
  case \$word in
    --whole-archive) whole=yes ;;
    --no-whole-archive) whole= ;;
    *) [ -n "\$whole" ] || words+=("\$word") ;;
  esac
done
$(printf '%q' "$kit/toolchain/bin/ld.lld") "\${words[@]}" || exit
[ ! -x program ] || cp program $(printf '%q' "$2")
END
}

# Builds the program without any proof, at the path $1. The toolchain's trial run links it, and then runs it once.
build_unproved() {
  local work
  work=$(mktemp -d) || return 1
  quick_toolchain "$work/kit" "$work/program" &&
    (cd "$top/crates/chor" && "$work/kit/bin/rt" try --steps 1 -- check none) >"$work/log" 2>&1 </dev/null
  if [ -x "$work/program" ] && mkdir -p "$(dirname "$1")" && cp "$work/program" "$1.$$" && mv "$1.$$" "$1"; then
    rm -rf "$work"
    return 0
  fi
  cat "$work/log" >&2
  say "the program wasn't built"
  rm -rf "$work"
  return 1
}

# Whether a call is proving right now. The lock is held as long as one of its programs runs.
is_proving() { [ -e "$lock" ] && ! flock -s -n "$lock" true; }

# Begins to prove, or goes on with it, in the background, unless that is going on, failed for these sources, or isn't wanted.
prove_in_background() {
  if [ "${CHOR_PROVE:-}" = no ]; then
    say "this answer isn't proved yet; chor --prove proves the program"
  elif ! has_toolchain; then
    say "this answer isn't proved, and can't be: the toolchain's command rt isn't on the PATH"
  elif [ "$(cat "$failed" 2>/dev/null)" = "$1" ]; then
    say "this answer isn't proved: proving failed; $details says why, and chor --prove tries again"
  elif is_proving; then
    say "this answer isn't proved yet; $(tail -n 1 "$progress" 2>/dev/null | sed 's/^chor: //')"
  else
    setsid nice -n 19 "$top/tools/chor/prove" --background >/dev/null 2>&1 </dev/null &
    say "this answer isn't proved yet; proving goes on in the background, see $progress"
  fi
}

# Sets `program` to the program that answers: the given one, the installed one, the proved one, or an unproved one, which is
# built where there is none.
choose_program() {
  local now
  if [ -n "${CHOR:-}" ]; then
    program=$(command -v -- "$CHOR") || { say "CHOR=$CHOR is no program"; exit 127; }
    # CHOR may name this very script, which then takes the program that it has without it.
    [ "$program" -ef "$top/chor" ] || return
  fi
  program=$top/program
  [ ! -x "$program" ] || return
  now=$(sources)
  program=$proved
  ! is_made_from "$proved" "$now" || return
  program=$unproved
  if ! is_made_from "$unproved" "$now"; then
    has_toolchain || { say_toolchain_is_missing; exit 127; }
    say "no program is built yet; one without proofs comes first, which takes half a minute"
    build_unproved "$unproved" || exit 70
    stamp_of "$unproved" "$now" >"$unproved.sources"
  fi
  prove_in_background "$now"
}
