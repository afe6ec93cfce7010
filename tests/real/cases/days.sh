# Days that are made from a number, in memory.

# What atday prints, by its counts.
day() {
  printf '%s\n' "events $1" "last $2" "pending $3" "running $4" "removed $5" "finished $6" "not started $7" "interrupted $8"
}

case_a_made_day() {
  call atday --make 8
  ended 0 "$(day 8 3 0 0 1 2 0 0)"$'\n' ''
  call program atday --make 40
  ended 0 "$(day 40 15 0 1 5 8 0 1)"$'\n' ''
  [ ! -e spool ] && [ ! -e spool.lock ] && [ ! -e spool.out ] || fail 'a folder was made'
}

case_two_thousand_events() {
  local TIMEFORMAT='%3U %3S' made
  made="$(day 2000 750 0 0 250 418 0 82)"$'\n'
  for _ in 1 2; do
    { time (ulimit -v 65536; call atday --make 2000; ended 0 "$made" ''); } 2>times || fail "$(cat times)"
    # Some 0.6 seconds where docs/PERFORMANCE.md was measured: other machines may be slower.
    awk 'END { exit !($1 + $2 < 2) }' times || fail "it took $(tail -n 1 times) seconds of processor time"
  done
}

case_words_of_atday() {
  for words in '' '--make' '--make 0' '--make 2001' '--make 08x' '--make 8 8' '8'; do
    # shellcheck disable=SC2086
    call atday $words
    refused 1 'atday: usage'
  done
}

case_atday_without_an_output() {
  bare "$bin/atday" --make 8 >/dev/full 2>err
  [ $? = 4 ] || fail 'its status is not 4'
  [ "$(cat err)" = 'atday: output fault' ] || fail "it says $(cat err)"
}
