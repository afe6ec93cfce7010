# Many at once, and calls that are killed.

case_submitters_at_once() {
  opened
  for submitter in $(seq 8); do
    (
      for job in $(seq 38); do
        until status=0; printf 'echo %s of %s\n' "$job" "$submitter" | bare "$bin/at" -t 203001010000 2>"said_$submitter" >/dev/null || status=$?; [ "$status" = 0 ]; do
          [ "$status $(cat "said_$submitter")" = '5 at: spool busy' ] || { cp "said_$submitter" "failed_$submitter"; exit; }
        done
      done
    ) &
  done
  wait
  for said in failed_*; do [ ! -e "$said" ] || fail "a submission failed: $(cat "$said")"; done
  user=root with '' atq
  [ "$(cut -f1 out | sort -n | tr '\n' ' ')" = "$(seq 304 | tr '\n' ' ')" ] || fail "the numbers are $(cut -f1 out | tr '\n' ' ')"
  tail -qn 1 spool/a* | sort >jobs
  for submitter in $(seq 8); do for job in $(seq 38); do echo "echo $job of $submitter"; done; done | sort | cmp -s - jobs || fail 'a job is lost'
}

# How many milliseconds a call takes here, told by one list; kills come within twice as many.
measured() {
  local from
  from=$(date +%s%3N)
  user=root with '' atq
  span=$(((($(date +%s%3N) - from) * 2) + 4)) cut=0 sync=0
}

# Whether a call can be cut off between what it writes and the sync of it.
needs_disk() { [ "$(stat -f -c %T .)" != tmpfs ] || skip 'files in memory are synced at once, so no call is cut off in the midst'; }

# Makes a call, and kills it at a random moment. What it says is of this call alone, also where it was killed before it
# said anything.
killed() { # input, what it says, word..
  : >"$2"
  (becomes "$bin/$3" "${@:4}" <"$1" >>served 2>"$2") &
  local child=$! wait=$((RANDOM % span))
  sleep "$((wait / 1000)).$(printf %03d $((wait % 1000)))"
  kill -9 "$child" 2>/dev/null
  ended_as=0; wait "$child" 2>/dev/null || ended_as=$?
  counted
}

# $ended_as is the status of the last call, and $cut counts the sessions that were cut off in the midst: the byte of the lock
# says that not all of what they changed is on the disk.
counted() { [ "$ended_as" != 137 ] || [ ! -s "$spool.lock" ] || [ "$(head -c 1 "$spool.lock")" = c ] || cut=$((cut + 1)); }

# Makes a call, and kills it at one of its syncs, however fast it is: the first call at the first, the next one at the
# second, and so on; after a call that made fewer, at the first again.
killed_at_next_sync() { # input, what it says, word..
  : >"$2"
  sync=$((sync + 1)) ended_as=0
  (becomes "$strace" -o /dev/null -e trace=fsync -e inject=fsync:signal=KILL:when=$sync "$bin/$3" "${@:4}" <"$1" >>served 2>"$2") \
    2>/dev/null || ended_as=$?
  [ "$ended_as" = 137 ] || sync=0
  counted
}

# The calls of odd rounds are killed at a random moment, those of even ones at a sync.
killed_somehow() { # round, input, what it says, word..
  if [ $(($1 % 2)) = 0 ]; then killed_at_next_sync "${@:2}"; else killed "${@:2}"; fi
}

# Each job that was acknowledged before is there, with its whole text. The others may be there, whole too.
all_are_there() {
  user=root with '' atq
  [ "$status" = 0 ] || fail "after a kill: $(cat err)"
  cut -f1 out | sort >listed
  sort acknowledged | comm -23 - listed >lost
  [ ! -s lost ] || fail "acknowledged and gone: $(tr '\n' ' ' <lost)"
}

case_submitters_that_are_killed() {
  needs_strace; opened; measured
  : >acknowledged
  for round in $(seq 100); do
    { printf 'echo begin %s\n' "$round"; head -c 20000 /dev/zero | tr '\0' '#'; printf '\necho end %s\n' "$round"; } >text
    killed_somehow "$round" text said at -t 203001010000
    sed -n 's/^job \([0-9]*\) at Tue Jan  1 00:00:00 2030$/\1/p' said >>acknowledged
    [ $((round % 10)) != 0 ] || all_are_there
  done
  all_are_there
  [ -s acknowledged ] || fail 'each submission was killed too early'
  for file in spool/a0*; do
    begun=$(sed -n 's/^echo begin //p' "$file") last=$(tail -n 1 "$file")
    [ "$last" = "echo end $begun" ] && [ "$(tail -n 2 "$file" | head -n 1 | wc -c)" = 20001 ] || fail "$file is not whole"
  done
}

case_removals_that_are_killed() {
  needs_disk; needs_strace; opened; measured
  for _ in $(seq 40); do with 'true' at -t 203001010000; done
  number=0
  while [ $number -lt 40 ]; do
    number=$((number + 1))
    killed_somehow $number /dev/null said atrm "$number"
    user=root with '' atq
    [ "$status" = 0 ] || fail "after a kill: $(cat err)"
    [ "$ended_as" != 0 ] || ! grep -q "^$number"$'\t' out || fail "job $number was removed and is there"
    [ "$(cut -f1 out | sort -n | awk -v from=$((number + 1)) '$1 >= from' | wc -l)" = $((40 - number)) ] || fail 'another job is gone'
  done
  [ $cut -ge 5 ] || fail "$cut of $number removals were cut off in the midst"
}

case_daemons_that_are_killed() {
  needs_strace; needs_atd; opened; measured
  : >acknowledged; : >ran
  for round in $(seq 100); do
    printf 'echo %s >>ran' "$round" >text
    if [ $((round % 2)) = 0 ]; then call at now <text; cp err said; else killed_at_next_sync text said at now; fi
    sed -n 's/^job \([0-9]*\) at .*/\1/p' said >>acknowledged
    killed /dev/null said atd -s --turns 1
  done
  user=root with '' atq
  [ "$status" = 0 ] || fail "after the kills: $(cat err)"
  call atd -s </dev/null
  [ "$status" = 0 ] || fail "after the kills atd ends with $status: $(cat err)"
  sleep 0.5
  # (each second submission is not killed, and its job runs, unless its atd is killed as it starts)
  [ "$(wc -l <acknowledged)" -ge 50 ] && [ -s ran ] || fail "$(wc -l <acknowledged) jobs were acknowledged, and $(wc -l <ran) ran"
  [ -z "$(sort ran | uniq -d)" ] || fail "ran twice: $(sort ran | uniq -d | tr '\n' ' ')"
  while read -r number; do
    grep -q "^+S$(printf %08x "$number")" spool/.JRN || fail "job $number was acknowledged and never started"
  done <acknowledged
}
