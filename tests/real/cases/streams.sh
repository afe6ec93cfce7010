# Standard streams that are full, closed or not there.

case_full_and_closed_outputs() {
  opened
  status=0; bare "$bin/atq" >/dev/full 2>err </dev/null || status=$?
  [ "$status" = 0 ] || fail "an empty list needs no output: $status"
  with 'true' at -t 203001010000; took 1
  for words in atq 'at -l' 'at -c 1'; do
    # shellcheck disable=SC2086
    set -- $words
    status=0; bare "$bin/$1" "${@:2}" >/dev/full 2>err </dev/null || status=$?
    [ "$status $(cat err)" = "4 $1: output fault" ] || fail "$words on a full output: $status, $(cat err)"
    status=0; bare "$bin/$1" "${@:2}" >&- 2>err </dev/null || status=$?
    [ "$status $(cat err)" = "4 $1: output fault" ] || fail "$words on a closed output: $status, $(cat err)"
  done
  [ "$(stat -c %s spool.lock)" -le 1 ] || fail 'the lock file took what was to be shown'
}

case_closed_pipe() {
  opened
  with 'true' at -t 203001010000; took 1
  mkfifo pipe
  (exec 3<pipe; exec 3<&-) &
  { wait $!; sleep 0.2; status=0; (trap '' PIPE; bare "$bin/atq" 2>err </dev/null) || status=$?; echo "$status" >code; } >pipe
  [ "$(cat code) $(cat err)" = '4 atq: output fault' ] || fail "a closed pipe: $(cat code), $(cat err)"
  with '' atq; ended 0 $'1\tTue Jan  1 00:00:00 2030 a ann\n' ''
}

case_standard_error_that_fails() {
  opened
  status=0; printf true | bare "$bin/at" -t 203001010000 >out 2>/dev/full || status=$?
  [ "$status" = 4 ] || fail "a full standard error: $status"
  status=0; printf true | bare "$bin/at" -t 203001010000 >out 2>&- || status=$?
  [ "$status" = 4 ] || fail "a closed standard error: $status"
  status=0; bare "$bin/at" -l -r >out 2>&- || status=$?
  [ "$status" = 1 ] || fail "a refusal without standard error: $status"
  with '' atq
  ended 0 $'1\tTue Jan  1 00:00:00 2030 a ann\n2\tTue Jan  1 00:00:00 2030 a ann\n' ''
}

case_standard_input_that_fails() {
  opened
  status=0; bare "$bin/at" noon tomorrow >out 2>err <&- || status=$?
  refused 3 'at: input fault'
  call at noon tomorrow <.
  refused 3 'at: input fault'
  status=0; bare "$bin/at" noon tomorrow >&- 2>&- <&- || status=$?
  [ "$status" = 3 ] || fail "with all streams closed: $status"
}
