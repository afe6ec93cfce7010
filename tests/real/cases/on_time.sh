# When jobs start, and what happens where their output can't be created.

case_an_output_that_cannot_be_created() {
  needs_atd; opened
  with 'echo hi; touch ran; exit 3' at now; took 1
  with 'echo ho' at now; took 2
  output=$spool.out/$(basename "$(file_of 1)")
  mkdir -p "$output"
  call atd -s </dev/null
  [ "$status" = 0 ] || fail "status $status: $(cat err)"
  [ "$(sort out)" = $'job 1 exit 3\njob 1 handed over\njob 2 exit 0\njob 2 handed over' ] || fail "atd says $(cat out)"
  [ "$(cat err)" = "atjob: no output file $output" ] || fail "standard error is $(cat err)"
  [ -e ran ] || fail 'the job did not run'
  [ -d "$output" ] && [ -z "$(ls "$output")" ] || fail 'something else is at the place of the output'
  [ "$(output_of 2)" = ho ] || fail "the output of the other job is $(output_of 2)"
}

# Starts the installed atd, traced where words for that come, and ends it with the case. (The atd of tests/mains rests to the
# end of each minute whatever happens.)
serves() {
  extra=(ATSPOOL="$spool" TZ=UTC)
  (exec env -i PATH=/usr/bin:/bin "${extra[@]}" "$@" "$door/atd" >served 2>said </dev/null) &
  daemon=$!
  trap 'kill "$daemon" 2>/dev/null' EXIT
  awaits_atd
  # (of the locks beside the spool that are traced the first is that under which its own is made, and the second that of its
  # first turn)
  if [ $# -gt 0 ]; then awaits_turns 2; fi
  sleep 1.5
}
counted_turns() { grep -csE 'flock\([0-9]+<[^>]*\.lock>, LOCK_EX.* = 0' calls; }
awaits_turns() { for _ in $(seq 400); do [ "$(counted_turns)" -lt "$1" ] || return 0; sleep 0.05; done; fail "there are $(counted_turns) turns, not $1"; }

# Waits twenty seconds at most, which no rest of a minute is, for what a job writes as it starts, in milliseconds since 1970.
awaits_start() {
  for _ in $(seq 400); do [ ! -s started ] || return 0; sleep 0.05; done
  fail 'the job did not start within twenty seconds'
}

case_at_now_starts_at_once() {
  needs_atd; doored; opened; serves
  for round in 1 2 3; do
    rm -f started
    hand 'date +%s%3N >started_not; mv started_not started' at now
    took "$round"
    awaits_start
  done
}

case_long_a_job_starts_at_its_minute() {
  needs_atd; doored; opened; serves
  [ $(($(date +%s) % 60)) -lt 50 ] || sleep 11
  minute=$((($(date +%s) / 60 + 1) * 60))
  hand 'date +%s%3N >started_not; mv started_not started' at -t "$(TZ=UTC date -d "@$minute" +%Y%m%d%H%M)"
  took 1
  sleep $((minute - $(date +%s)))
  awaits_start
  late=$(($(cat started) - minute * 1000))
  [ "$late" -ge 0 ] && [ "$late" -lt 10000 ] || fail "the job started $late ms after its minute"
}

# A notice is sent as its job ends, and the next one too: atpost watches the spool, and does not rest for twenty seconds.
case_a_notice_at_once() {
  needs_atd; doored; opened; extra=(ATSPOOL="$spool" TZ=UTC)
  printf '#!/bin/sh\ncat >%q.new && mv %q.new %q\n' "$PWD/notice" "$PWD/notice" "$PWD/notice" >post; chmod 755 post
  (exec env -i PATH=/usr/bin:/bin "${extra[@]}" "$door/atpost" --send "$PWD/post" >/dev/null 2>said </dev/null) & post=$!
  trap 'kill "$post" 2>/dev/null' EXIT
  for job in 1 2 3; do
    hand true at -m now; took $job
    for _ in $(seq 160); do grep -qs "^N 0000000$job" "$spool/.MAIL" && break; sleep 0.05; done
    grep -qs "^N 0000000$job" "$spool/.MAIL" || fail "job $job is not noted within eight seconds: $(cat said)"
    knock atd -s; [ "$status" = 0 ] || fail "atd: $(cat err)"
    for _ in $(seq 160); do [ ! -s notice ] || break; sleep 0.05; done
    [ "$(cat notice)" = "job $job exit 0" ] || fail "no notice of job $job comes within eight seconds: $(cat said)"
    rm notice
  done
}

# However many submissions there are, atd makes one turn a second, and one more where a minute ends.
case_a_flood_of_submissions() {
  needs_strace; needs_atd; doored; opened
  serves strace -D -f -y -e trace=flock -o "$PWD/calls"
  from=$(counted_turns) begun=$(date +%s%3N)
  for _ in $(seq 40); do hand true at -t 203001010000; done
  awaits_turns $((from + 1)); sleep 1.5
  turns=$(($(counted_turns) - from)) seconds=$((($(date +%s%3N) - begun) / 1000 + 1))
  [ "$turns" -ge 1 ] && [ "$turns" -le $((seconds + 1)) ] || fail "$turns turns in $seconds seconds"
}

# Listings, removals and ends of jobs are no submissions.
case_long_a_rest_that_no_submission_ends() {
  needs_strace; needs_atd; doored; opened
  extra=(ATSPOOL="$spool" TZ=UTC)
  hand true at -t 203001010000; took 1
  serves strace -D -f -y -e trace=flock -o "$PWD/calls"
  # (within one minute, which a busy machine may be too slow for)
  for _ in 1 2 3 4 5; do
    [ $(($(date +%s) % 60)) -lt 40 ] || sleep $((62 - $(date +%s) % 60))
    minute=$(($(date +%s) / 60)) from=$(counted_turns)
    knock atq; knock atrm 1
    sleep 5
    found=$(counted_turns)
    [ $(($(date +%s) / 60)) != "$minute" ] || break
  done
  [ "$found" = "$from" ] || fail "$((found - from)) turns within a minute"
  sleep $((60 - $(date +%s) % 60))
  awaits_turns $((from + 1)); sleep 1
  [ "$(counted_turns)" = $((from + 1)) ] || fail "$(($(counted_turns) - from)) turns at the end of a minute"
}

# Turns begin at the same second of each minute, whatever a turn takes: so a batch job starts in each, with 60 seconds from one
# to the next. The clock is told, so that this takes no twenty minutes, in which no job ends: an end has a turn of its own. With
# 61 seconds only every second turn starts one.
case_a_batch_job_in_each_turn() {
  command -v cc >/dev/null || skip 'there is no cc'
  needs_atd; doored
  cc -shared -fPIC -o clock.so "$here/told_clock.c" || fail 'the clock is not compiled'
  for row in 60:20 61:10; do
    opened "spool_${row%:*}"
    extra=(ATSPOOL="$spool" TZ=UTC)
    for job in $(seq 20); do hand 'exec sleep 60' batch; took "$job"; done
    extra+=(LD_PRELOAD="$PWD/clock.so")
    knock atd -l 999 -b "${row%:*}" --turns 20
    [ "$status" = 0 ] && [ ! -s err ] || fail "with ${row%:*} seconds atd ends with $status: $(cat err)"
    [ "$(grep -c '^job [0-9]* handed over$' out)" = "${row#*:}" ] || fail "with ${row%:*} seconds 20 turns start $(grep -c 'handed over$' out) batch jobs"
  done
}
