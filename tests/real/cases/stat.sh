# What became of jobs: lines, statuses, and the wait for their end.

# A slot of the journal, as docs/FORMATS.md has it.
slot() { printf '+%s%08x%s%s%016x.\n' "$1" "$2" "${3:--}" "${4:--00}" "${5:-0}"; } # kind, number, queue, ending, second
# A job of that number, user, queue and minute, whose script ends at once.
job_of() { # number, user, queue, minute
  printf '#!/bin/sh\n# at user=%s mail=0\numask 0022\ncd / || exit 1\nexit 0\n' "$2" >"$spool/$3$(printf '%08x%08x' "$1" "$4")"
  chmod 600 "$spool"/"$3"*
}
# A spool with a number in each state: 1 to 5 have finished, 6 has neither a mark nor a file, 7 runs, 8 and 9 wait.
each_state() {
  opened; named root ann ben 'a b'
  {
    slot S 1 a -00 1735689600; slot E 1 - x03
    slot S 2 a -00 1735689600; slot E 2 - s09
    slot S 3 a -00 1735689600; slot E 3 - n00
    slot S 4 a -00 1735689600; slot I 4
    slot R 5
    slot S 7 c -00 1735693345
  } >"$spool/.JRN"
  job_of 7 ann c 28928160; job_of 8 ann a 31557600; job_of 9 ben z 31557600
  printf '%08x\n' 9 >"$spool/.SEQ"
}
live=$'7\trunning\tWed Jan  1 01:02:00 2025\tc\tann\n8\twaiting\tTue Jan  1 00:00:00 2030\ta\tann\n'
others=$'9\twaiting\tTue Jan  1 00:00:00 2030\tz\tben\n'
over=$'1\texit\t3\n2\tsignal\t9\n3\tnot started\n4\tinterrupted\n5\tremoved\n'

case_stat_of_each_state() {
  each_state
  call atstat </dev/null; ended 0 "$live$over" ''
  user=root call atstat </dev/null; ended 0 "$live$others$over" ''
  call atstat 6 5 4 3 2 1 8 1 </dev/null
  ended 0 $'6\tforgotten\n5\tremoved\n4\tinterrupted\n3\tnot started\n2\tsignal\t9\n1\texit\t3\n8\twaiting\tTue Jan  1 00:00:00 2030\ta\tann\n' ''
  call atstat -q a </dev/null; ended 0 "$(tail -n 1 <<<"${live%?}")"$'\n' ''
  call atstat -q c </dev/null; ended 0 "$(head -n 1 <<<"$live")"$'\n' ''
  call atstat -q b </dev/null; ended 0 '' ''
  zone=EST5EDT,M3.2.0,M11.1.0 call atstat 8 </dev/null; ended 0 $'8\twaiting\tMon Dec 31 19:00:00 2029\ta\tann\n' ''
  # (a finished job has no owner in the spool)
  user=ben call atstat 1 </dev/null; ended 0 $'1\texit\t3\n' ''
}

case_stat_as_json() {
  each_state
  user=root call atstat --json </dev/null
  ended 0 '{"date":"Wed Jan  1 01:02:00 2025","job":7,"queue":"c","state":"running","user":"ann"}
{"date":"Tue Jan  1 00:00:00 2030","job":8,"queue":"a","state":"waiting","user":"ann"}
{"date":"Tue Jan  1 00:00:00 2030","job":9,"queue":"z","state":"waiting","user":"ben"}
{"code":3,"job":1,"state":"exit"}
{"job":2,"signal":9,"state":"signal"}
{"job":3,"state":"not started"}
{"job":4,"state":"interrupted"}
{"job":5,"state":"removed"}
' ''
  call atstat --json 6 </dev/null; ended 0 '{"job":6,"state":"forgotten"}'$'\n' ''
}

case_stat_statuses_of_a_waited_job() {
  each_state
  while IFS='|' read -r number code line; do
    call atstat -w "$number" </dev/null; ended "$code" "$number"$'\t'"${line/ /$'\t'}"$'\n' ''
  done <<'END'
1|3|exit 3
2|137|signal 9
4|124|interrupted
5|123|removed
6|122|forgotten
END
  call atstat -w 3 </dev/null; ended 125 $'3\tnot started\n' ''
  call atstat -w 1 2 </dev/null; ended 0 $'1\texit\t3\n2\tsignal\t9\n' ''
  call atstat -w --json 2 </dev/null; ended 137 '{"job":2,"signal":9,"state":"signal"}'$'\n' ''
}

case_stat_refused() {
  each_state
  cp -a "$spool" before
  while IFS='|' read -r words code text; do
    # shellcheck disable=SC2086
    call atstat $words </dev/null; refused "$code" "atstat: $text"
  done <<'END'
-x|1|usage
x|1|usage
-q a 1|1|usage
-q a -q b|1|usage
--turns 2|1|usage
--turns 2 1|1|usage
-w --turns 0|1|usage
-w --turns|1|usage
-w -w|1|usage
--json --json|1|usage
4294967296|1|usage
-q ab|1|bad queue
-q =|1|bad queue
0|1|no such job 0
10|1|no such job 10
1 10 11|1|no such job 10
9|1|job 9 is not yours
1 9|1|job 9 is not yours
-w 9|1|job 9 is not yours
END
  user='a b' call atstat -x </dev/null; refused 1 'atstat: usage'
  user='a b' call atstat </dev/null; refused 1 'atstat: bad user name'
  printf 'ann\n' >"$spool/at.deny"; call atstat 10 </dev/null; refused 1 'atstat: not allowed'
  : >"$spool/at.deny"
  spool=$PWD/none/spool call atstat </dev/null; refused 2 'atstat: spool fault'
  diff -r before "$spool" || fail 'a refusal changes the spool'
  printf 0 >"$spool/.SEQ"; call atstat 10 </dev/null; refused 7 'atstat: .SEQ damaged at 1'
}

case_stat_to_a_full_device() {
  each_state
  status=0; bare timeout 20 "$bin/atstat" >/dev/full 2>err </dev/null || status=$?
  [ "$status $(cat err)" = '4 atstat: output fault' ] || fail "a full device: $status, $(cat err)"
  # (an empty listing is not written)
  status=0; bare timeout 20 "$bin/atstat" -q b >/dev/full 2>err </dev/null || status=$?
  [ "$status $(cat err)" = '0 ' ] || fail "an empty listing: $status, $(cat err)"
}

# The lines are as at the last look, also where the looks are used up.
case_stat_looks_that_are_used_up() {
  each_state
  from=$(date +%s%3N)
  call atstat -w --turns 2 8 1 </dev/null
  took=$(($(date +%s%3N) - from))
  ended 8 $'8\twaiting\tTue Jan  1 00:00:00 2030\ta\tann\n1\texit\t3\n' $'atstat: jobs still running\n'
  [ "$took" -ge 900 ] && [ "$took" -lt 5000 ] || fail "two looks a second apart take $took ms"
  call atstat -w --turns 1 </dev/null; ended 8 "$live$over" $'atstat: jobs still running\n'
  call atstat -w --turns 1 5 </dev/null; ended 123 $'5\tremoved\n' ''
}

# It waits for a job of a real atd, and ends as the job does.
case_stat_waits_for_a_job() {
  needs_atd; opened; named root ann ben
  with 'touch begun; while [ ! -e go ]; do sleep 0.05; done; exit 7' at now; took 1
  (becomes timeout 60 "$bin/atstat" -w 1 >line 2>said </dev/null) & waiter=$!
  (becomes timeout 60 "$bin/atd" -s >served 2>served_said </dev/null) & daemon=$!
  awaits begun
  call atstat 1 </dev/null; grep -qP '^1\trunning\t[A-Z][a-z]{2} [A-Z][a-z]{2} [ 1-3][0-9] [0-9:]{5}:00 20[0-9]{2}\ta\tann$' out || fail "a running job is $(cat out err)"
  sleep 1.5; kill -0 "$waiter" 2>/dev/null || fail 'it ends before the job'
  [ ! -s line ] || fail "it prints $(cat line) before the end"
  touch go
  wait "$daemon" || fail "atd: $(cat served_said)"
  code=0; wait "$waiter" || code=$?
  [ "$code" = 7 ] && [ "$(cat line)" = $'1\texit\t7' ] && [ ! -s said ] || fail "it ends with $code: $(cat line said)"
  call atstat -w 1 </dev/null; ended 7 $'1\texit\t7\n' ''
}

# Without names it waits for each live job that the caller sees at first, and for none that comes later.
case_stat_waits_for_all_at_first() {
  needs_atd; opened; named root ann ben
  with 'touch begun; while [ ! -e go ]; do sleep 0.05; done' at now; took 1
  with 'exit 3' at now; took 2
  user=ben with 'true' at -t 203001010000; took 3
  (becomes timeout 60 "$bin/atstat" -w >lines 2>said </dev/null) & waiter=$!
  (becomes timeout 60 "$bin/atd" -s >served 2>served_said </dev/null) & daemon=$!
  awaits begun; sleep 1.2
  with 'true' at -t 203001010000; took 4
  touch go; wait "$daemon" || fail "atd: $(cat served_said)"
  code=0; wait "$waiter" || code=$?
  [ "$code" = 0 ] && [ ! -s said ] || fail "it ends with $code: $(cat said)"
  grep -qx $'1\texit\t0' lines && grep -qx $'2\texit\t3' lines || fail "it prints $(cat lines)"
  ! grep -q ben lines || fail "another user's job is shown: $(cat lines)"
}

# A killed waiter held nothing and leaves nothing: the next call gets the lock at once, and no file is new.
case_stat_that_is_killed() {
  needs_atd; opened; named root ann ben
  with 'true' at -t 203001010000; took 1
  call atq </dev/null
  for round in 1 2 3 4 5 6 7 8; do
    (becomes "$bin/atstat" -w 1 >line 2>said </dev/null) & waiter=$!
    sleep "$((round % 4)).$((RANDOM % 10))"
    flock -w 0.5 "$spool.lock" true || fail 'a waiter holds the lock'
    listed=$(find . -path ./out -o -path ./err -o -printf '%p %s\n' | grep spool | sort)
    kill -9 "$waiter"; wait "$waiter" 2>/dev/null
    flock -n "$spool.lock" true || fail 'the lock is held after the kill'
    [ "$(find . -path ./out -o -path ./err -o -printf '%p %s\n' | grep spool | sort)" = "$listed" ] || fail "a kill leaves $(ls -lA spool*)"
    [ ! -s line ] && [ ! -s said ] || fail "it says $(cat line said)"
    call atstat 1 </dev/null; ended 0 $'1\twaiting\tTue Jan  1 00:00:00 2030\ta\tann\n' ''
  done
}

# By its installed name: the caller's own spool, what a script reads, and the lists of the machine.
case_door_stat() {
  doored; opened
  extra=(ATSPOOL="$spool" TZ=UTC)
  hand 'exit 9' at now; took 1
  hand 'true' at -t 203001010000; took 2
  user=$me call atd -s </dev/null; [ "$status" = 0 ] || fail "atd: $(cat err)"
  knock atstat; ended 0 $'2\twaiting\tTue Jan  1 00:00:00 2030\ta\t'"$me"$'\n1\texit\t9\n' ''
  knock atstat -w 1; ended 9 $'1\texit\t9\n' ''
  knock atstat -w --turns 1 2; ended 8 $'2\twaiting\tTue Jan  1 00:00:00 2030\ta\t'"$me"$'\n' $'atstat: jobs still running\n'
  knock atstat 3; refused 1 'atstat: no such job 3'
  knock atstat --turns 2; refused 1 'atstat: usage'
}

# As a script that submits, waits and goes on by the end, which atd records in its next turn.
case_long_stat_in_a_script() {
  doored; opened
  extra=(ATSPOOL="$spool" TZ=UTC)
  # shellcheck disable=SC2016
  (exec env -i PATH=/usr/bin:/bin "${extra[@]}" timeout 200 "$door/atd" >served 2>served_said </dev/null) & daemon=$!
  status=0; env -i PATH="$door:/usr/bin:/bin" "${extra[@]}" sh -c 'job=$(echo "exit 4" | at now 2>&1 | sed -n "s/^job \([0-9]*\) at .*/\1/p"); atstat -w --turns 100 "$job"' >out 2>err </dev/null || status=$?
  ended 4 $'1\texit\t4\n' ''
  kill "$daemon"; wait "$daemon" 2>/dev/null
}
