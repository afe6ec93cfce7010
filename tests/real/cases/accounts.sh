# Accounts: what became of the jobs that a look saw.

# A look, which prints nothing and ends well.
looks() { call ataccount "$spool" </dev/null; ended 0 '' ''; }
# What --show prints.
shows() { call ataccount "$spool" --show </dev/null; ended 0 "$1" ''; }

case_account_of_a_day() {
  needs_atd; opened
  looks
  [ ! -e "$spool/.ACC" ] || [ ! -s "$spool/.ACC" ] || fail 'an empty spool has records'
  with 'exit 3' at now; took 1; looks
  with 'true' at -t 203001010000; took 2; looks
  with 'true' at -q b -t 203001010000; took 3; looks
  call atrm 2 </dev/null; ended 0 '' ''; looks
  call atd -s </dev/null; [ "$status" = 0 ] || fail "atd: $(cat err)"; looks
  shows $'ann a 2 1 1 0 0 1 0\nann b 1 0 0 0 0 0 0\n'
  cp "$spool/.ACC" account; looks; cmp -s account "$spool/.ACC" || fail 'a look at nothing new changes the account'
  [ "$(stat -c %a "$spool/.ACC")" = 600 ] || fail "the rights of the account are $(stat -c %a "$spool/.ACC")"
  # rotated: the job that lives is counted anew
  mv "$spool/.ACC" old; looks
  shows $'ann b 1 0 0 0 0 0 0\n'
}

case_account_of_two_users() {
  needs_atd; opened
  user=ben with 'true' at -q z now; took 1
  user=ann with 'true' at now; took 2
  looks; call atd -s </dev/null; [ "$status" = 0 ] || fail "atd: $(cat err)"
  shows $'ann a 1 1 1 0 0 0 0\nben z 1 1 1 0 0 0 0\n'
}

case_account_refused() {
  opened
  for words in 'x' '--show x' '-s' '--show --show'; do
    # shellcheck disable=SC2086
    call ataccount "$spool" $words </dev/null; refused 1 'ataccount: usage'
  done
  call ataccount </dev/null; refused 1 'ataccount: usage'
  call ataccount --show </dev/null; refused 1 'ataccount: usage'
  [ ! -e "$spool.lock" ] || fail 'refused words enter the spool'
  with 'true' at now; took 1
  printf 'S 00000001\n' >"$spool/.ACC"
  call ataccount "$spool" </dev/null; refused 7 'ataccount: .ACC damaged at 0'
  rm "$spool/.ACC"; looks; cat "$spool/.ACC" "$spool/.ACC" >twice; cp twice "$spool/.ACC"
  call ataccount "$spool" </dev/null; refused 7 "ataccount: .ACC damaged at $(($(stat -c %s twice) / 2))"
  cmp -s twice "$spool/.ACC" || fail 'a damaged account is changed'
  rm "$spool/.ACC"; printf 0 >"$spool/.SEQ"; printf x >"$spool/.ACC"
  call ataccount "$spool" </dev/null; refused 7 'ataccount: .SEQ damaged at 1'
}

case_account_to_a_closed_pipe() {
  opened
  with 'true' at now; took 1
  mkfifo pipe
  (exec 3<pipe; exec 3<&-) &
  { wait $!; sleep 0.2; status=0; (trap '' PIPE; bare "$bin/ataccount" "$spool" --show 2>err </dev/null) || status=$?; echo "$status" >code; } >pipe
  [ "$(cat code) $(cat err)" = '4 ataccount: output fault' ] || fail "a closed pipe: $(cat code), $(cat err)"
  [ "$(cat "$spool/.ACC")" = 'A 00000001 a ann' ] || fail "the account is $(cat "$spool/.ACC")"
  status=0; bare "$bin/ataccount" "$spool" --show >/dev/full 2>err || status=$?
  [ "$status" = 4 ] && [ "$(cat err)" = 'ataccount: output fault' ] || fail "a full device: status $status: $(cat err)"
  [ "$(cat "$spool/.ACC")" = 'A 00000001 a ann' ] || fail 'a failed line changes the account'
}

# After each kill the account is as it was or as it is to be, and no count falls.
case_account_that_is_killed() {
  needs_disk; needs_strace; opened; measured
  for round in $(seq 40); do
    with 'true' at -t 203001010000
    # (the job of the round before was seen)
    [ $((round % 3)) != 0 ] || call atrm $((round - 1)) </dev/null
    killed_somehow "$round" /dev/null said ataccount "$spool"
    call ataccount "$spool" --show </dev/null
    [ "$status" = 0 ] || fail "after a kill: $(cat err)"
    [ ! -e "$spool/.ATMP" ] || fail 'a temporary file stays'
    set -- $(cat out)
    [ "$1 $2 $3" = "ann a $round" ] || fail "round $round: $(cat out)"
    [ "$8" = $((round / 3)) ] || fail "round $round: $(cat out)"
  done
  [ $cut -ge 5 ] || fail "$cut of $round looks were cut off in the midst"
}
