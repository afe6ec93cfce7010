# What keeps the programs of one spool apart, by whatever path they come and whatever was removed beside it, and when the end of
# a job is seen.

# Steps in a mount namespace in which ./one and ./two are one directory with the spool.
doubled() { # function
  unshare -m true 2>/dev/null || skip 'no mount namespace can be had'
  mkdir -p one two
  (export -f fail skip; unshare -m bash -c 'mount --bind one two || exit 77; . "$0/words.sh"; for file in "$0"/cases/*.sh; do . "$file"; done; '"$1" "$here")
  status=$?
  [ "$status" != 77 ] || skip 'no directory can be bound to a second place'
  return $status
}

# Submits so many jobs one after the other, by this path.
submits() { # path, count, name
  local number
  for number in $(seq "$2"); do
    ATSPOOL=$1 TZ=UTC "$door/at" now <ran_once 2>>"said_$3" || echo "$number" >>failed
  done
}

# Each job adds a line with its number to ./ran, by the name of its file.
steps_of_two_paths() {
  mkdir -m 700 one/spool; : >one/spool/at.deny
  printf 'basename "$0" >>%s/ran\n' "$PWD" >ran_once
  for path in one two; do
    (ATSPOOL=$PWD/$path/spool TZ=UTC timeout 60 "$door/atd" --turns 25 >"served_$path" 2>&1 </dev/null; echo $? >"ended_$path") &
  done
  for path in one two; do submits "$PWD/$path/spool" 20 "$path" & done
  wait
  [ ! -e failed ] || fail "submissions were refused: $(sort said_* | uniq -c | tail -n 3)"
  sort ended_one ended_two | tr '\n' ' ' | grep -qx '0 5 ' || fail "the daemons end with $(cat ended_one ended_two): $(tail -n 3 served_one served_two)"
  ATSPOOL=$PWD/one/spool TZ=UTC "$door/atd" -s >served_last 2>&1 </dev/null || fail "the last turn says $(cat served_last)"
  sleep 1
  "$door/atcheck" "$PWD/one/spool" >faults || fail "the spool has faults: $(cat faults)"
  [ "$(sort ran | uniq -d)" = '' ] || fail "ran twice: $(sort ran | uniq -d)"
  [ "$(wc -l <ran)" = 40 ] || fail "$(wc -l <ran) of 40 jobs ran"
}
case_door_a_spool_of_two_paths() { needs_atd; doored; doubled steps_of_two_paths; }

# Four submitters, beside whom the lock file is removed again and again.
case_door_a_lock_file_that_is_removed() {
  doored; opened
  echo true >ran_once
  for submitter in 1 2 3 4; do submits "$spool" 20 "$submitter" & done
  (until [ -e over ]; do rm -f "$spool.lock"; sleep 0.01; done) & remover=$!
  wait $(jobs -p | grep -v "^$remover$")
  : >over; wait
  [ ! -e failed ] || fail "submissions were refused: $(sort said_* | grep -v '^job' | uniq -c | head -n 3)"
  "$door/atcheck" "$spool" >faults || fail "the spool has faults: $(cat faults)"
  [ "$(cat said_* | cut -d ' ' -f 2 | sort -n | uniq | wc -l)" = 80 ] || fail "a number was given twice: $(cat said_* | cut -d ' ' -f 2 | sort | uniq -d)"
}

# Who waited while another directory took the name of the spool enters that one.
case_door_a_spool_that_is_replaced() {
  doored; opened; opened new
  spool=$PWD/spool
  printf '00000041\n' >new/.SEQ
  : >>spool.lock
  (flock 9; : >held; sleep 1; mv spool old; mv new spool) 9<spool.lock &
  awaits held
  ATSPOOL=$spool TZ=UTC "$door/at" -t 203001010000 <<<true 2>said || fail "it says $(cat said)"
  wait
  grep -q '^job 66 at' said || fail "in place of job 66 it says $(cat said)"
  [ "$(ls old)" = at.deny ] || fail "the old directory has $(ls old)"
}

# The directory of outputs is removed beside an atd: it stays the only one, and goes on.
case_door_outputs_removed_beside_an_atd() {
  needs_atd; doored; opened; serves
  rm -rf "$spool.out"
  status=0; ATSPOOL=$spool TZ=UTC timeout 60 "$door/atd" -s >out 2>err </dev/null || status=$?
  refused 5 'atd: spool busy'
  hand 'echo hi; touch ran' at now; took 1
  awaits ran
  [ ! -s said ] || fail "atd says $(cat said)"
}

# One atpost and one atcron a spool; a trim goes on beside an atpost.
case_door_one_atpost_and_one_atcron() {
  doored; opened
  export ATSPOOL=$spool TZ=UTC
  printf '#!/bin/sh\ncat >>%s/mailed\n' "$PWD" >send; chmod +x send
  echo '0 0 1 1 * true' >crontab
  "$door/atpost" "$spool" --send "$PWD/send" >posted 2>&1 </dev/null & post=$!
  "$door/atcron" "$spool" -f crontab >cronned 2>&1 </dev/null & cron=$!
  trap 'kill $post $cron 2>/dev/null' EXIT
  for file in .ATPOST .ATCRON; do awaits "$spool/$file"; done
  sleep 0.5
  knock atpost "$spool" --send "$PWD/send" --turns 1; refused 5 'atpost: spool busy'
  knock atcron "$spool" -f crontab --turns 1; refused 5 'atcron: spool busy'
  knock atpost "$spool" --trim; [ "$status" = 0 ] || fail "a trim ends with $status: $(cat err)"
  kill $post $cron; wait $post $cron 2>/dev/null
  knock atpost "$spool" --send "$PWD/send" --turns 1; [ "$status" = 0 ] || fail "after it: $status, $(cat err)"
}

# A lock that is held for 12 seconds is waited for, and after three of them a terminal is told so, once.
case_door_a_lock_that_is_held_for_long() {
  needs_terminal; doored; opened
  extra=(ATSPOOL="$spool" TZ=UTC)
  : >>"$spool.lock"
  (flock 9; : >held; sleep 12) 9<"$spool.lock" &
  awaits held
  typed "echo true | $door/at -t 203001010000"
  wait
  [ "$(head -n 1 said)" = "at: waiting for another program that uses $spool" ] && grep -q '^job 1 at' said && [ "$(grep -c waiting said)" = 1 ] \
    || fail "it says $(cat said)"
}

# Both words of the checker name one directory: it doesn't wait for itself.
case_door_a_salvage_into_the_spool() {
  doored; opened
  ln -s spool link
  for words in "$spool $spool" "$spool $PWD/link"; do
    # shellcheck disable=SC2086
    status=0; timeout 5 "$door/atcheck" $words --salvage >out 2>err || status=$?
    refused 5 'atcheck: spool busy'
  done
  knock atcheck "$spool" "$spool"; [ "$status" = 0 ] || fail "without a salvage it ends with $status: $(cat err)"
}

# How long after its end atstat -w of a job answers, in milliseconds, as the job writes it.
case_door_an_end_is_seen_at_once() {
  needs_atd; doored; opened; serves
  big='exec python3 -c "import sys; x = bytearray(700 << 20); open(sys.argv[1], \"w\").write(\"1\")" "$PWD/big_ended"'
  command -v python3 >/dev/null || big='touch big_ended'
  printf '%s\n' 'sleep 2' "cd '$PWD'; $big" 'sh -c "sleep 1; kill -9 \$\$"' >lines
  number=0
  while read -r line; do
    number=$((number + 1))
    hand "cd '$PWD'; trap 'touch ended_$number' EXIT; ($line)" at now; took "$number"
    awaits_end "$number"
  done <lines
}
awaits_end() { # number
  ATSPOOL=$spool TZ=UTC timeout 60 "$door/atstat" -w "$1" >out 2>err; : >seen
  [ -e "ended_$1" ] || fail "job $1 has not ended: $(cat out err)"
  late=$(($(stat -c %Y seen) - $(stat -c %Y "ended_$1")))
  [ "$late" -le 3 ] || fail "the end of job $1 was seen $late s after it"
}

# The status of the process can't be read: that is no bad user name.
case_door_a_process_that_knows_nothing_of_itself() {
  needs_strace; doored; opened
  status=0
  env -i PATH=/usr/bin:/bin ATSPOOL="$spool" "$strace" -o traced --quiet=path-resolution -P /proc/self/status -e inject=open,openat:error=EIO \
    "$door/at" -t 203001010000 >out 2>err <<<true || status=$?
  refused 2 'at: /proc/self/status can not be read'
}

# A child that finds no memory is tried thrice more, and is then a failed start.
case_door_a_child_that_finds_no_memory() {
  needs_strace; needs_atd; doored; opened
  extra=(ATSPOOL="$spool" TZ=UTC)
  for tries in 3 4; do
    rm -f ran
    hand "touch $PWD/ran" at now; [ "$status" = 0 ] || fail "it says $(cat err)"
    env -i PATH=/usr/bin:/bin "${extra[@]}" "$strace" -o traced -e trace=fork,vfork,clone,clone3 \
      -e "inject=fork,vfork,clone,clone3:error=ENOMEM:when=1..$tries" "$door/atd" -s >"served_$tries" 2>&1 </dev/null
    sleep 0.5
    case $tries in
      3) [ -e ran ] && grep -qx 'job 1 handed over' served_3 || fail "after three: $(cat served_3)" ;;
      4) [ ! -e ran ] && grep -qx 'job 2 not started' served_4 || fail "after four: $(cat served_4)" ;;
    esac
  done
}
