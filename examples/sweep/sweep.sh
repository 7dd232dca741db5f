#!/usr/bin/env bash
# Asks each of many questions of each of many controllers, side by side, and shows a table of verdicts.
#
#   examples/sweep/sweep.sh FOLDER                        every pair of examples/
#   examples/sweep/sweep.sh FOLDER CTRL.. -- QUEST..      these controllers with these questions
#   examples/sweep/sweep.sh --one CTRL QUEST              one pair, as one line of JSON
#   examples/sweep/sweep.sh --table FOLDER                the table again
#
# FOLDER gets reports.jsonl (a line for each pair) and jobs.log. After an interruption the same call goes on with the pairs that are left.
# JOBS=N in the environment sets how many run at once (each processor one, if it isn't set). It needs `parallel` (GNU) and `jq`.
set -u
here=$(cd "$(dirname "${BASH_SOURCE[0]}")" && pwd)
top=$(cd "$here/../.." && pwd)
self=$here/$(basename "${BASH_SOURCE[0]}")

# One pair as one line of JSON: names, status, the first word of the verdict, seconds, and the whole report.
one() {
  local report status began ended
  report=$(mktemp)
  began=$EPOCHREALTIME
  "$top/ccac" check "$1" "$2" >"$report" 2>/dev/null
  status=$?
  ended=$EPOCHREALTIME
  jq -c -n --arg controller "$1" --arg question "$2" --argjson status "$status" --rawfile text "$report" \
    --argjson seconds "$(awk -v a="$began" -v b="$ended" 'BEGIN { printf "%.3f", b - a }')" \
    '{controller: $controller, question: $question, status: $status, verdict: ($text | split("\n")[0]), seconds: $seconds, text: $text}'
  rm -f "$report"
}

table() {
  jq -r -s 'sort_by(.question, .controller)[] | [(.controller | split("/")[-1] | rtrimstr(".controller")),
      (.question | split("/")[-1] | rtrimstr(".question")), .verdict, "\(.seconds) s", "\(.text | length) bytes"] | join("|")' \
    "$1/reports.jsonl" | column -t -s '|' -N controller,question,report,time,length
}

sweep() {
  local folder=$1
  shift
  local controllers=() questions=() behind=
  for it in "$@"; do
    if [ "$it" = -- ]; then behind=1; elif [ -n "$behind" ]; then questions+=("$it"); else controllers+=("$it"); fi
  done
  if [ $# = 0 ]; then controllers=("$top"/examples/*.controller) questions=("$top"/examples/*.question); fi
  mkdir -p "$folder" || exit 1
  # A program that isn't built yet is built once, before the pairs begin.
  "$top/ccac" fmt "${controllers[0]}" >/dev/null
  parallel ${JOBS:+-j "$JOBS"} --joblog "$folder/jobs.log" --resume "$self" --one {1} {2} ::: "${controllers[@]}" ::: "${questions[@]}" \
    >>"$folder/reports.jsonl" || exit
  table "$folder"
}

case "${1-}" in
  --one) one "$2" "$3" ;;
  --table) table "$2" ;;
  '' | -*) sed -n '2,10s/^# \{0,1\}//p' "$self" >&2; exit 4 ;;
  *) sweep "$@" ;;
esac
