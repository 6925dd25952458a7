# Runs the program `$program` of this repository, whose folder is `$top`: the proved program where it was built from these sources, and else an
# optimised one that the toolchain builds of them without proofs, at the first use, and that is kept below out/. Which of them is said on the error
# stream. Where it can run neither the script ends with status 70, which no program here has. The first `$plain` words name no file.
proved=$top/crates/$program/out/$program
how="cd crates/$program && rt run"

cannot() { printf '%s: %s\n' "$program" "$1" >&2; exit 70; }

sources() { (cd "$top/crates" && find ./*/src -name '*.rt' "$@"); }

if [ -x "$proved" ]; then
  [ -n "$(sources -newer "$proved" -print -quit)" ] || exec "$proved" "$@"
  echo "$program: the proved program is older than the sources ($how builds it anew)" >&2
fi

# What the program is built from: the sources, by their names and what they hold, and the toolchain.
rt=$(command -v rt) || cannot "the proved program is not built here, and rt, the command of the toolchain that builds it, is not in PATH"
kit=$(readlink -f -- "$rt")
kit=${kit%/bin/*}/KIT-ID
sum=$({
  sources -print0 | LC_ALL=C sort -z | (cd "$top/crates" && xargs -0 sha256sum)
  cat "$kit" 2>/dev/null || rt version
} | sha256sum) || cannot 'the sources cannot be read'
name=$program-${sum:0:32}
built=$top/out/$name

if [ ! -x "$built" ]; then
  python3 "$top/tools/unproved.py" "$top/out" "$name"
  status=$?
  # Above 128: a signal ended it, and it ends this script too.
  [ "$status" -le 128 ] || exit "$status"
fi
if [ -x "$built" ]; then
  echo "$program: running a build without proofs ($how builds the proved program)" >&2
  exec "$built" "$@"
fi

# The toolchain's own way to run a program unproved. It runs it in a folder of its own and hands no open file on, so names of files are made
# whole, and what is printed is written when the program has ended. It builds the program at each use.
echo "$program: running it as the toolchain does without a proof, which takes minutes at each use and ends a program after a minute" >&2
words=("${@:1:plain}")
for word in "${@:plain+1}"; do
  [ ! -f "$word" ] || word=$(readlink -f -- "$word")
  words+=("$word")
done
cd -- "$top/crates/$program" || cannot "no folder $top/crates/$program"
rt try -- "${words[@]}" 2> >(grep -vE '^(checked|run|races)[:=]' >&2)
