#!/usr/bin/env bash
# Quick checks of the repository's own rules. Prints what is wrong, and nothing else; the last line of the gate stays that of `rt ci`.
cd "$(dirname "$0")/.." || exit 1
failed=0
wrong() { printf 'quick check: %s\n' "$1" >&2; failed=1; }

[ "$(cat HANDLES)" = 'Handles allowed: Threads, Wait.' ] || wrong 'HANDLES has changed'
cites=$(git grep -nIE '\b(document|paper) 0[1-4]\b|\b0[1-4] section|\b(D([1-9]|[12][0-9])|W([1-9]|1[0-6])|R([1-9]|1[0-9]|20)|T[1-5])\b' -- '*.md' '*.rt' '*.antt' '*.edit' \
  | grep -vE '[<:,&(] *[DTRW][0-9]+ *[>:,)]|\{[A-Z]')
[ -z "$cites" ] || wrong "a number of a paper is cited: $cites"
while read -r line; do
  name=${line%%:*}
  case "$name" in ''|\#*) continue ;; esac
  grep -q "\`$name\`" docs/ARCHITECTURE.md || wrong "$name is not in docs/ARCHITECTURE.md"
  [ -s "crates/$name/README.md" ] || wrong "$name has no page crates/$name/README.md"
done < crates.txt
[ "$(wc -l < README.md)" -le 250 ] || wrong 'README.md has more than 250 lines'
for path in $(grep -oE '(examples|docs|bench)/[A-Za-z0-9_./-]+' README.md | sort -u); do
  [ -e "${path%.}" ] || wrong "README.md names $path, which is not there"
done
nowhere=$(.ci/paths.py) || wrong "a page names what is not there: $nowhere"
differs=$(.ci/crates.py) || wrong "docs/ARCHITECTURE.md says other crates than crates.txt: $differs"
twice=$(.ci/equal.py --most 4 5) || wrong "more is said twice than before (.ci/equal.py --list): $twice"
names=$(.ci/names.py) || wrong "one name means several things on the way from the top call's contract: $names"
cannot=$(.ci/edits.py) || wrong "an edit cannot be applied: $cannot"
for path in automizer explain tools/unproved.py bench/gate.py; do
  [ -x "$path" ] || wrong "the script $path is not there"
done
# The examples are verified as they say, by the proved program, and each verdict is confirmed.
program=crates/automizer/out/automizer
if [ -x "$program" ]; then
  text=$(mktemp) || exit 1
  for path in examples/verify/*.bpl; do
    IFS=, read -r verdict most < <(sed -nE 's|^// By verify: ([a-z ]+)(, within ([0-9]+) rounds?)?[.]$|\1,\3|p' "$path")
    # (an unknown verdict has nothing to confirm)
    case "$verdict" in safe) mode=check ;; unsafe) mode=replay ;; *) mode='' ;; esac
    for workers in 1 4; do
      timeout 60 "$program" verify "$path" --workers "$workers" >"$text"
      [ "$(sed -n 1p "$text")" = "$verdict" ] || wrong "$path is not verified as $verdict by $workers"
      # How many rounds several workers take goes by the schedule.
      rounds=$(sed -n '2s/^rounds //p' "$text")
      [ -z "$most" ] || [ "$workers" -gt 1 ] || [ "${rounds:-$((most + 1))}" -le "$most" ] || wrong "$path took $rounds rounds, more than $most"
      [ -z "$mode" ] || "$program" "$mode" "$path" "$text" >"$text.answer" || wrong "what is said of $path is not confirmed"
    done
  done
  # Those by parts say how their first line reads: `modular K`, or the part that is not safe.
  for path in examples/modular/*.bpl; do
    first=$(sed -nE 's|^// .*By verify --modular: ([a-z]+ [a-z0-9]+), .*|\1|p' "$path")
    case "$first" in modular*) mode=check ;; *) mode=replay ;; esac
    timeout 60 "$program" verify "$path" --modular >"$text"
    [ "$(sed -n 1p "$text")" = "$first" ] || wrong "$path is not verified as $first"
    "$program" "$mode" "$path" "$text" --modular >"$text.answer" || wrong "what is said of the parts of $path is not confirmed"
  done
  # One begins with the annotation of an earlier version.
  timeout 60 "$program" verify examples/reuse/after.bpl --workers 1 --reuse examples/reuse/before.proof >"$text"
  [ "$(sed -n 1,2p "$text" | tr '\n' ' ')" = 'safe rounds 1 ' ] || wrong 'examples/reuse/after.bpl takes another number of rounds with the annotation of before.bpl'
  "$program" check examples/reuse/before.bpl examples/reuse/before.proof >"$text.answer" || wrong 'examples/reuse/before.proof is not accepted'
  "$program" check examples/reuse/after.bpl "$text" >"$text.answer" || wrong 'the annotation of examples/reuse/after.bpl is not accepted'
  # Of each lasso that is said which its program tells, and what is found is accepted.
  for path in examples/lasso/*.lasso; do
    loop=${path%.lasso}.bpl
    said=$(sed -nE 's|^// .*By lasso: ([a-z ]+)[.].*|\1|p' "$loop")
    timeout 60 "$program" lasso "$loop" "$path" >"$text"
    case "$said" in
      unknown*) [ "$(cat "$text")" = "$said" ] || wrong "of $path is not said $said" ;;
      *)
        [ "$(awk 'NR == 4 { print $1 }' "$text")" = "$said" ] || wrong "of $path is not said $said"
        "$program" ranked "$loop" "$text" >"$text.answer" || wrong "the ranking of $path is not accepted" ;;
    esac
  done
  "$program" ranked examples/lasso/countdown.bpl examples/lasso/countdown.ranking >"$text.answer" || wrong 'examples/lasso/countdown.ranking is not accepted'
  said=$("$program" ranked examples/lasso/countdown.bpl examples/lasso/countdown.wrong)
  [ "$said" = 'rejected 7 BadTriple' ] || wrong "of examples/lasso/countdown.wrong is said: $said"
  rm -f "$text" "$text.answer"
fi
# What is explained of an example that is safe is a program that is safe, and the shipped texts and stories are what is printed.
second=crates/explain/out/explain
if [ -x "$program" ] && [ -x "$second" ]; then
  text=$(mktemp) || exit 1
  for path in examples/verify/*.bpl; do
    grep -q '^// By verify: safe' "$path" || continue
    timeout 60 "$program" verify "$path" --workers 1 >"$text"
    timeout 60 "$second" "$path" "$text" >"$text.bpl" || wrong "$path is not explained"
    timeout 60 "$program" verify "$text.bpl" --workers 1 >"$text"
    [ "$(sed -n 1p "$text")" = safe ] || wrong "what is explained of $path is not verified as safe"
  done
  for path in examples/explain/*.explained.bpl; do
    name=$(basename "$path" .explained.bpl)
    of=$(ls examples/{explain,verify,check}/"$name.bpl" 2>/dev/null)
    by=$(ls examples/{explain,check}/"$name.proof" 2>/dev/null)
    "$second" "$of" "$by" | cmp -s - "$path" || wrong "$path is not what is explained of $of by $by"
  done
  for path in examples/explain/*.story; do
    name=$(basename "$path" .story)
    "$second" "examples/replay/$name.bpl" "examples/replay/$name.failure" | cmp -s - "$path" || wrong "$path is not the story of examples/replay/$name.failure"
  done
  for path in examples/explain/*.trace; do
    name=$(basename "$path" .trace)
    "$second" "examples/lasso/$name.bpl" "$path" | cmp -s - "${path%.trace}.told" || wrong "${path%.trace}.told is not the story of $path"
  done
  rm -f "$text" "$text.bpl"
fi
# The scripts run them too, where no source is newer, through a link from another folder, and names of files are those of that folder.
is_new() { [ -x "$1" ] && [ -z "$(find crates/*/src -name '*.rt' -newer "$1" -print -quit)" ]; }
away=$(mktemp -d) || exit 1
cp examples/check/fill.bpl examples/check/fill.proof "$away"
if is_new "$program"; then
  ln -s "$PWD/automizer" "$away/link"
  said=$(cd "$away" && ./link check fill.bpl fill.proof 2>&1)
  [ "$said" = accepted ] || wrong "./automizer through a link from another folder says: $said"
fi
if is_new "$second"; then
  ln -s "$PWD/explain" "$away/second"
  said=$(cd "$away" && ./second fill.bpl fill.proof 2>&1)
  [ "$said" = "$(cat examples/explain/fill.explained.bpl)" ] || wrong "./explain through a link from another folder says: $said"
fi
rm -rf "$away"
exit "$failed"
