# Many callers at one spool, and one atd on it.

# A spool in which so many jobs wait.
filled() { # count, name
  opened "${2:-spool}"
  awk -v count="$1" -v user="$me" -v spool="$spool" 'BEGIN {
    for (job = 1; job <= count; job++) {
      file = sprintf("%s/a%08x0fffffff", spool, job)
      printf "#!/bin/sh\n# at user=%s mail=0\numask 0022\ncd \047/\047 || {\n\techo \047Execution directory inaccessible\047 >&2\n\texit 1\n}\ntrue\n", user >file
      close(file)
    }
  }'
  printf '%08x\n' "$1" >"$spool/.SEQ"
  export ATSPOOL=$spool TZ=UTC
}

case_door_submitters_at_once() {
  doored; opened
  export ATSPOOL=$spool TZ=UTC
  for submitter in $(seq 8); do
    (for job in $(seq 25); do printf 'echo %s of %s\n' "$job" "$submitter" | "$door/at" -t 203001010000 2>>"said_$submitter" || echo "$?" >>failed; done) &
  done
  wait
  [ ! -e failed ] || fail "refused: $(wc -l <failed), $(grep -hv '^job ' said_* | sort | uniq -c)"
  "$door/atq" >out
  [ "$(cut -f1 out | sort -n | tr '\n' ' ')" = "$(seq 200 | tr '\n' ' ')" ] || fail "the numbers are $(cut -f1 out | tr '\n' ' ')"
  tail -qn 1 spool/a* | sort >jobs
  for submitter in $(seq 8); do for job in $(seq 25); do echo "echo $job of $submitter"; done; done | sort | cmp -s - jobs || fail 'a job is lost'
}

case_door_twenty_at_once() {
  doored; filled 1000
  printf true >commands
  for caller in $(seq 20); do
    case $((caller % 4)) in
      0) "$door/at" -t 203001010000 <commands ;;
      1) printf true | "$door/at" -t 203001010000 ;;
      2) "$door/atq" | wc -l ;;
      3) "$door/atrm" "$caller" ;;
    esac >/dev/null 2>"said_$caller" || echo "$caller" >>failed &
  done
  wait
  cat said_* | grep -v '^job ' >wrong
  [ ! -s wrong ] && [ ! -e failed ] || fail "$(sort wrong | uniq -c)"
  [ "$("$door/atq" | wc -l)" = 1005 ] || fail "there are $("$door/atq" | wc -l) jobs"
}

# Neither a producer that calls at itself, nor a reader that does, nor a pipe that is long in coming, holds up anyone.
case_door_pipes_that_wait() {
  doored; filled 2000
  (echo true; "$door/at" -l 1 >&2) 2>err | timeout 120 "$door/at" -t 203001010000 2>said || fail "a producer that calls at: $(cat said err)"
  # (these lines are more than a pipe holds)
  timeout 120 "$door/atq" | { printf true | "$door/at" -t 203001010000 2>>said; wc -l >lines; } || fail "a reader that calls at: $(cat said)"
  # Whichever of the two has its turn first.
  case $(cat lines) in 2001 | 2002) ;; *) fail "it reads $(cat lines) lines" ;; esac
  mkfifo late fifo
  # shellcheck disable=SC2046
  trap 'kill $(jobs -p) 2>/dev/null' EXIT
  cat late | "$door/at" -t 203001010000 2>slow &
  "$door/at" -f fifo -t 203001010000 2>slow_too &
  sleep 0.3
  printf true | timeout 120 "$door/at" -t 203001010000 2>>said || fail "beside pipes that are slow: $(cat said)"
  timeout 120 "$door/atrm" 1 2>>said || fail "beside pipes that are slow: $(cat said)"
  [ ! -s slow ] && [ ! -s slow_too ] || fail "the slow ones say $(cat slow slow_too)"
  echo true >late; echo true >fifo
  wait
  [ "$(cat said slow slow_too | grep -c '^job ')" = 5 ] || fail "the jobs are $(cat said slow slow_too)"
}

# A caller waits until nobody holds the spool, by whatever name it is called: ten seconds are not all it has.
case_door_a_long_turn() {
  doored; filled 1
  ln -s spool link
  : >>"$spool.lock"
  (flock 9; : >held; sleep 1; : >freed) 9<"$spool.lock" &
  awaits held
  ATSPOOL=$PWD/link "$door/atq" >out; [ -e freed ] || fail 'a caller does not wait for the lock'
  grep -q '^1	' out || fail "it lists $(cat out)"
  (flock 9; : >again; sleep 11) 9<"$spool.lock" &
  awaits again
  "$door/atrm" 1 2>said || fail "it says $(cat said)"
  [ -z "$(find "$spool/" -name 'a0*')" ] || fail 'the job is not removed'
  wait
}

# A daemon beside eight submitters without pause makes each turn.
case_door_a_daemon_in_a_crowd() {
  needs_atd; doored; opened
  export ATSPOOL=$spool TZ=UTC
  printf true >commands
  for submitter in $(seq 8); do
    (until [ -e over ]; do
      "$door/at" -t 203001010000 <commands 2>"said_$submitter" && "$door/atrm" "$(cut -d ' ' -f 2 "said_$submitter")" 2>"said_$submitter" \
        || cat "said_$submitter" >>failed
    done) &
  done
  timeout 300 "$door/atd" --turns 20 >served 2>said </dev/null; status=$?
  : >over; wait
  [ "$status" = 0 ] && [ ! -s said ] && [ ! -s served ] || fail "atd ends with $status: $(sort said | uniq -c; head -n 3 served)"
  [ ! -e failed ] || fail "callers are refused: $(sort failed | uniq -c)"
  [ -d "$spool.out" ] && [ "$((0x$(cat "$spool/.SEQ")))" -ge 8 ] || fail "there were $(cat "$spool/.SEQ") submissions"
}

case_door_one_atd() {
  needs_atd; doored; opened; ln -s spool link
  export ATSPOOL=$spool TZ=UTC
  printf 'touch begun; while [ ! -e go ]; do sleep 0.05; done; touch ended' >commands
  "$door/at" now <commands 2>err || fail "no job: $(cat err)"
  "$door/atd" >served 2>said </dev/null &
  first=$!
  trap 'kill $first 2>/dev/null; : >go' EXIT
  awaits begun
  for words in "$spool:" "$spool:-s" "$PWD/link:-s" "$spool/.:-s" "./spool//:-s --turns 1"; do
    # shellcheck disable=SC2086
    status=0; ATSPOOL=${words%%:*} timeout 60 "$door/atd" ${words#*:} >out 2>err </dev/null || status=$?
    refused 5 'atd: spool busy'
  done
  kill -9 $first; wait $first 2>/dev/null
  # the job runs on, and has not the lock
  "$door/atd" -s >out 2>err </dev/null || fail "after it: $(cat err)"
  [ "$(cat out)" = 'job 1 interrupted' ] || fail "it says $(cat out)"
  touch go; awaits ended
}

# Of those that begin at once, on a spool that has no outputs yet, one works.
case_door_two_atd_at_once() {
  needs_atd; doored
  trap 'kill $(jobs -p) 2>/dev/null' EXIT
  for round in 1 2 3 4; do
    opened "new_$round"; export ATSPOOL=$spool TZ=UTC
    for daemon in 1 2 3; do
      (status=0; "$door/atd" >/dev/null 2>"said_$daemon" </dev/null & echo $! >"pid_$daemon"; wait $! || status=$?; echo "$status" >"ended_${round}_$daemon") &
    done
    for _ in $(seq 200); do [ "$(cat "ended_${round}"_* 2>/dev/null | wc -l)" -lt 2 ] || break; sleep 0.05; done
    sleep 0.2
    [ "$(cat "ended_${round}"_*)" = $'5\n5' ] || fail "of three, $(cat "ended_${round}"_* | wc -l) end: $(cat said_*)"
    kill $(cat pid_*) 2>/dev/null; wait
  done
}

# An atd by setsid -f, as the printed lines have it, outlives ^C and the end of the terminal, and so do its jobs.
case_door_an_atd_of_its_own_group() {
  needs_atd; doored; opened
  export ATSPOOL=$spool TZ=UTC
  grep -q 'setsid -f atd' "$here/../../packaging/install.sh" && ! grep -qE 'atd &($|[^&])' "$here/../../packaging/install.sh" || fail 'another line is printed'
  printf 'echo $PPID >begun; while [ ! -e go ]; do sleep 0.05; done; touch ended' >commands
  "$door/at" now <commands 2>err || fail "no job: $(cat err)"
  setsid bash -c 'setsid -f "$1" >/dev/null </dev/null; sleep 30' _ "$door/atd" 2>said &
  shell=$!
  awaits_text begun; sleep 0.1
  daemon=$(cat begun)
  trap 'kill "$daemon" 2>/dev/null; : >go' EXIT
  kill -INT -- -$shell; kill -HUP -- -$shell; kill -KILL -- -$shell; wait $shell 2>/dev/null
  kill -0 "$daemon" || fail 'atd is gone'
  touch go; awaits ended
}
