# The daemon. Each case is skipped as long as atd does not serve.

# Waits until the file is there.
awaits() { for _ in $(seq 400); do [ -e "$1" ] && return; sleep 0.05; done; fail "there is no $1"; }
# The same for what it writes.
awaits_text() { for _ in $(seq 400); do [ -s "$1" ] && return; sleep 0.05; done; fail "there is nothing in $1"; }
# Waits for an atd that works on the spool: it has the lock of the outputs, which a look here must not take.
awaits_atd() {
  for _ in $(seq 400); do
    [ -d "$spool.out" ] && grep -q ":$(stat -c %i "$spool.out") " /proc/locks && return
    sleep 0.05
  done
  fail "no atd works on $spool"
}
# What the one job of this number wrote.
output_of() { cat "$spool.out/"?"$(printf %08x "$1")"????????; }

case_a_job_runs() {
  needs_atd; opened
  with 'echo hi; echo ho >&2; cat; pwd; printf "%s\n" "$0"' at now
  took 1
  job=$(file_of 1)
  call atd -s </dev/null
  ended 0 $'job 1 handed over\njob 1 exit 0\n' ''
  [ "$(output_of 1)" = $'hi\nho\n'"$PWD"$'\n'"$job" ] || fail "the output is $(output_of 1)"
  with '' atq; ended 0 '' ''
  [ ! -e "$job" ] || fail 'the file of an ended job stays'
  call atd -s </dev/null
  ended 0 '' ''
}

case_endings() {
  needs_atd; opened
  for commands in 'exit 3' 'kill -9 $$' 'exit 255'; do with "$commands" at now; done
  call atd -s </dev/null
  [ "$status" = 0 ] || fail "status $status: $(cat err)"
  for line in 'job 1 handed over' 'job 1 exit 3' 'job 2 signal 9' 'job 3 exit 255'; do
    grep -qx "$line" out || fail "there is no line '$line' in $(cat out)"
  done
}

case_umask_and_variables_of_a_run() {
  needs_atd; opened
  extra=(VALUE=$'it\'s `a` "b"\n$c')
  mkdir at_home; cd at_home || exit 1
  (umask 027; printf 'printf %%s "$VALUE" >made' | bare "$bin/at" now 2>../err) || fail "no job: $(cat ../err)"
  cd ..
  call atd -s </dev/null
  [ "$(stat -c %a at_home/made)" = 640 ] || fail 'the umask is not that of the caller'
  printf '%s' "${extra[0]#VALUE=}" | cmp -s - at_home/made || fail "the value is $(cat at_home/made)"
}

case_a_directory_that_is_gone() {
  needs_atd; opened
  mkdir home; (cd home && printf 'echo hi' | bare "$bin/at" now 2>/dev/null); rmdir home
  call atd -s </dev/null
  ended 0 $'job 1 handed over\njob 1 exit 1\n' ''
  output_of 1 | tail -n 1 | grep -qx 'Execution directory inaccessible' || fail "the output is $(output_of 1)"
}

case_niceness_by_queue() {
  needs_atd; opened
  own=$(nice)
  for queue in a c j z; do with nice at -q "$queue" now; done
  call atd -s </dev/null
  for number in 1:0 2:4 3:18 4:19; do
    want=$((own + ${number#*:})); [ "$want" -le 19 ] || want=19
    [ "$(output_of "${number%:*}")" = "$want" ] || fail "job ${number%:*} has the niceness $(output_of "${number%:*}"), not $want"
  done
}

case_batch_and_the_load() {
  needs_atd; opened
  with 'true' batch; with 'true' batch; with 'true' at now
  call atd -s -l 0 </dev/null
  ended 0 $'job 3 handed over\njob 3 exit 0\n' ''
  call atd -s -l 999999 -b 0 </dev/null
  ended 0 $'job 1 handed over\njob 1 exit 0\n' ''
  call atd -s -l 999999 -b 3600 </dev/null
  ended 0 '' ''
  call atd -s -l 999999 -b 0 </dev/null
  ended 0 $'job 2 handed over\njob 2 exit 0\n' ''
}

case_jobs_that_run() {
  needs_atd; opened
  with 'touch begun; while [ ! -e go ]; do sleep 0.05; done' at now; took 1
  bare timeout 60 "$bin/atd" -s >served 2>said </dev/null &
  daemon=$!
  awaits begun
  with '' atq; grep -q '^1	.* = ann$' out || fail "a running job is listed as $(cat out err)"
  with '' atq -q =; grep -q '^1	' out || fail 'the queue = has not the running job'
  with '' atq -q a; ended 0 '' ''
  with '' atrm 1; refused 1 'atrm: job 1 is running'
  with '' at -c 1; [ "$status" = 0 ] || fail 'a running job is not shown'
  touch go
  wait "$daemon" || fail "atd ends with $?: $(cat said)"
  [ "$(cat served)" = $'job 1 handed over\njob 1 exit 0' ] || fail "atd says $(cat served)"
}

case_turns_that_are_used_up() {
  needs_atd; opened
  with 'touch begun; while [ ! -e go ]; do sleep 0.05; done' at now; took 1
  call atd -s --turns 2 </dev/null
  ended 8 $'job 1 handed over\n' $'atd: jobs still running\n'
  touch go
  call atd -s </dev/null
  ended 0 $'job 1 interrupted\n' ''
  call atd --turns 1 </dev/null
  ended 0 '' ''
}

case_a_daemon_that_is_killed() {
  needs_atd; opened
  with 'touch begun; while [ ! -e go ]; do sleep 0.05; done; echo >>ran' at now; took 1
  (becomes "$bin/atd" -s >served 2>said </dev/null) &
  daemon=$!
  awaits begun
  kill -9 "$daemon"; wait "$daemon" 2>/dev/null
  touch go
  call atd -s </dev/null
  ended 0 $'job 1 interrupted\n' ''
  with '' atq; ended 0 '' ''
  awaits ran; sleep 0.3
  [ "$(wc -l <ran)" = 1 ] || fail 'the job ran twice'
}

case_outputs_of_atd_that_fail() {
  needs_atd; opened
  with 'touch ran' at now; took 1
  status=0; bare timeout 40 "$bin/atd" -s >/dev/full 2>err </dev/null || status=$?
  [ "$status $(cat err)" = '4 atd: output fault' ] || fail "a full output: $status, $(cat err)"
  [ -e ran ] || fail 'the job did not run'
  with 'touch ran_too' at now; took 2
  status=0; bare timeout 40 "$bin/atd" -s <&- >&- 2>&- || status=$?
  [ "$status" = 4 ] && [ -e ran_too ] || fail "with all streams closed: $status"
  [ "$(stat -c %s spool.lock)" -le 1 ] || fail 'the lock file took what was to be printed'
  printf '0000g\n' >spool/.SEQ
  call atd -s </dev/null
  refused 7 'atd: .SEQ damaged at 4'
}

# At a limit of processes no child can be made: each job that is due is done, is told as not started, and does not come again.
steps_of_failed_starts() {
  home=$PWD/home
  for job in 1 2; do login "$door/at" now <<<"echo >>'$PWD/home/ran'" 2>err || fail "at: $(cat err)"; done
  status=0; second prlimit --nproc=1:1 env -i HOME="$home" TZ=UTC "$door/atd" -s >out 2>err </dev/null || status=$?
  ended 0 $'job 1 handed over\njob 1 not started\njob 2 handed over\njob 2 not started\n' ''
  status=0; login "$door/atd" -s >out 2>err </dev/null || status=$?
  ended 0 '' ''
  login "$door/atq" >out; [ ! -s out ] && [ ! -e home/ran ] || fail "they ran, or wait: $(cat out)"
}
case_starts_at_a_limit_of_processes() {
  command -v prlimit >/dev/null || skip 'there is no prlimit'
  needs_atd; doored; apart steps_of_failed_starts
}
