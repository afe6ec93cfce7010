# The checker, and what it saves.

# The checker lists these lines, and says that there are faults.
faulty() { call atcheck "$@" </dev/null; ended 9 "$lines" $'atcheck: spool has faults\n'; }
# The folder, byte by byte.
bytes_of() { (cd "$1" && find . -type f | sort | while read -r file; do printf '%s ' "$file"; md5sum <"$file"; done); }
# The salvaged folder has this last number, these marks, and these files of jobs, each as the checked folder has it.
saved() { # folder, number, marks, names
  local file
  [ "$(cat "$1/.SEQ")" = "$2" ] || fail "$1: the last number is $(cat "$1/.SEQ"), not $2"
  [ "$(marks_of "$1")" = "$3" ] || fail "$1: the marks are $(marks_of "$1"), not $3"
  [ "$(ls "$1" | paste -sd ' ')" = "$4" ] || fail "$1: the files are $(ls "$1" | paste -sd ' '), not $4"
  for file in $4; do cmp "$1/$file" "$spool/$file" || fail "$1: $file is another"; done
}
# The marks of its journal, in order, without what they carry.
marks_of() { LC_ALL=C grep -aoE '^\+[A-Z][0-9a-f]{8}' "$1/.JRN" | tr -d + | paste -sd ' '; }
# Three jobs, two of which wait and one of which has run, and a fourth that was taken back.
day_of_jobs() {
  needs_atd; opened
  with 'echo one' at now; took 1
  call atd -s </dev/null; [ "$status" = 0 ] || fail "atd: $(cat err)"
  with 'echo two' at now; with 'echo three' at -t 203001010000; with 'echo four' at now
  call atrm 4 </dev/null; ended 0 '' ''
}

case_check_a_whole_spool() {
  day_of_jobs
  bytes_of "$spool" >before
  call atcheck "$spool" </dev/null; ended 0 '' ''
  call atcheck "$spool" --salvage </dev/null; ended 0 '' ''
  call atcheck "$spool" "$PWD/new" --salvage </dev/null; ended 0 '' ''
  bytes_of "$spool" | cmp -s - before || fail 'the checked folder is changed'
  : >new/at.deny
  user=root with '' atq; cp out listed
  spool=$PWD/new user=root with '' atq
  cmp -s out listed || fail "the salvaged folder lists $(cat out)"
  call atcheck "$spool" "$PWD/new" --salvage </dev/null; refused 1 'atcheck: target not empty'
}

case_check_refused() {
  opened
  for words in 'x y' '--salvage --salvage' '-s' 'a b c --salvage'; do
    # shellcheck disable=SC2086
    call atcheck "$spool" $words </dev/null
    [ "$status $(cat err)" = '1 atcheck: usage' ] || fail "$words: status $status: $(cat err)"
  done
  call atcheck </dev/null; refused 1 'atcheck: usage'
  call atcheck --salvage </dev/null; refused 1 'atcheck: usage'
  call atcheck "$PWD/mistyped" </dev/null; refused 2 'atcheck: spool fault'
  [ -z "$(ls -d mistyped* 2>/dev/null)" ] || fail "a mistyped folder is made: $(ls -d mistyped*)"
  call atcheck "$PWD/mistyped" "$PWD/new" --salvage </dev/null; refused 2 'atcheck: spool fault'
  [ -z "$(ls -d mistyped* new* 2>/dev/null)" ] || fail "a folder is made: $(ls -d mistyped* new*)"
  call atcheck "$spool" "$spool" --salvage </dev/null; refused 5 'atcheck: spool busy'
  status=0; printf 0 >"$spool/.SEQ"; bare "$bin/atcheck" "$spool" >/dev/full 2>err </dev/null || status=$?
  [ "$status" = 4 ] || fail "a full device: status $status: $(cat err)"
}

# Each damage is listed, and what is saved has none.
case_check_damages() {
  day_of_jobs
  cp -a "$spool" whole
  second=$(basename "$(file_of 2)") third=$(basename "$(file_of 3)")
  for damage in sequence journal header twice all; do
    rm -rf "$spool" new; cp -a whole "$spool"
    lines='' number=00000004 marks='S00000001 E00000001 R00000004' names="$second $third"
    case $damage in sequence | all) printf 0000000 >"$spool/.SEQ"; lines+=$'.SEQ damaged at 7\n' ;; esac
    case $damage in
      journal | all)
        # (the removal of job 4 is lost, so no job that no mark names waits)
        head -c 70 "$spool/.JRN" >torn && mv torn "$spool/.JRN"
        lines+=$'.JRN damaged at 64\n' marks='S00000001 E00000001 R00000002 R00000003' names='' ;;
    esac
    case $damage in header | all) printf '#!/bin/sh\nexit\n' >"$spool/$second"; lines+="$second damaged at 10"$'\n' ;; esac
    case $damage in header) names=$third ;; all) number=00000003 marks='S00000001 E00000001 R00000003' ;; esac
    case $damage in twice | all) cp "$spool/$third" "$spool/b${third#?}"; lines+="b${third#?} damaged at 0"$'\n' ;; esac
    bytes_of "$spool" >before
    faulty "$spool"
    faulty "$spool" --salvage
    faulty "$spool" "$PWD/new" --salvage
    bytes_of "$spool" | cmp -s - before || fail "$damage: the checked folder is changed"
    call atcheck "$PWD/new" </dev/null; ended 0 '' ''
    saved new "$number" "$marks" "$names"
  done
}

# A salvage that is killed leaves a folder without its last number, which shows no job, or the whole salvage; the next one
# goes into a folder of its own.
case_check_salvage_that_is_killed() {
  needs_disk; needs_strace; day_of_jobs
  printf 0 >"$spool/.SEQ"; measured; span=$((span + 8))
  names="$(basename "$(file_of 2)") $(basename "$(file_of 3)")" marks='S00000001 E00000001 R00000004'
  parts=0
  # (a part of a salvage is one that has a file and no last number)
  for round in $(seq 40); do
    killed_somehow "$round" /dev/null said atcheck "$spool" "$PWD/new_$round" --salvage
    if [ -e "new_$round/.SEQ" ]; then
      call atcheck "$PWD/new_$round" </dev/null; ended 0 '' ''
      saved "new_$round" 00000004 "$marks" "$names"
    elif [ -n "$(ls -A "new_$round" 2>/dev/null)" ]; then
      parts=$((parts + 1))
      spool=$PWD/new_$round user=root with '' atq; [ -z "$(cat out)" ] || fail "a part of a salvage lists $(cat out)"
    fi
  done
  [ $parts -ge 5 ] || fail "$parts of $round salvages were cut off in the midst"
  lines=$'.SEQ damaged at 1\n'
  faulty "$spool" "$PWD/last" --salvage
  call atcheck "$PWD/last" </dev/null; ended 0 '' ''
  saved last 00000004 "$marks" "$names"
}

# The walk, by the script, and an atd that goes on after it.
case_check_walk() {
  doored; day_of_jobs
  second=$(file_of 2)
  printf 0000000 >"$spool/.SEQ"; printf '#!/bin/sh\nexit\n' >"$second"; cp "$(file_of 3)" "$spool/b$(basename "$(file_of 3)" | cut -c 2-)"
  bytes_of "$spool" >before
  extra=(ATSPOOL="$spool" TZ=UTC)
  status=0; printf 'n\n' | env -i PATH=/usr/bin:/bin "${extra[@]}" "$door/atsalvage" "$spool" >out 2>err || status=$?
  [ "$status" = 1 ] || fail "a no: status $status: $(cat out err)"
  bytes_of "$spool" | cmp -s - before || fail 'a no changes the directory'
  [ -z "$(ls -d spool.new* spool.bad 2>/dev/null)" ] || fail "a no leaves $(ls -d spool.new* spool.bad)"
  mkdir spool.bad; knock atsalvage --yes; [ "$status" = 1 ] || fail "with an old directory there: $status"
  rmdir spool.bad
  knock atsalvage --yes
  [ "$status" = 0 ] || fail "status $status: $(cat out err)"
  grep -qx "not in it: $PWD/spool.bad/$(basename "$second")" out || fail "what is not saved is not named: $(cat out)"
  grep -qP '^3\t.*Tue Jan  1 00:00:00 2030' out || fail "what waits is not reported: $(cat out)"
  bytes_of spool.bad | cmp -s - before || fail 'the old directory is changed'
  [ -e "$spool/at.deny" ] && [ -z "$(ls -d spool.new* 2>/dev/null)" ] || fail "it leaves $(ls -d spool.new*)"
  knock atsalvage; [ "$status" = 0 ] || fail "a whole spool: $status: $(cat err)"
  user=$me with 'echo later' at now; took 5
  user=$me call atd -s </dev/null; ended 0 $'job 5 handed over\njob 5 exit 0\n' ''
  knock atq; [ "$(cut -f 1 out)" = 3 ] || fail "it lists $(cat out)"
}

# A spool with a fault, and nothing beside it.
faulty_spool() {
  rm -rf "$spool" "$spool".*; cp -a whole "$spool"; printf 0000000 >"$spool/.SEQ"
}
# Both orders of its words, and the caller's own spool where none is named.
case_check_salvage_words() {
  doored; day_of_jobs; cp -a "$spool" whole
  extra=(ATSPOOL="$PWD/none" TZ=UTC)
  for words in '--yes SPOOL' 'SPOOL --yes'; do
    faulty_spool
    # shellcheck disable=SC2086
    knock atsalvage ${words/SPOOL/$spool}; [ "$status" = 0 ] && [ -d spool.bad ] || fail "$words: $status: $(cat out err)"
  done
  extra=(ATSPOOL="$spool" TZ=UTC); faulty_spool
  knock atsalvage --yes; [ "$status" = 0 ] && [ -d spool.bad ] || fail "--yes: $status: $(cat out err)"
  for words in '-y' '--yes a b' 'a b' '--yes --no'; do
    # shellcheck disable=SC2086
    knock atsalvage $words; refused 1 'atsalvage: usage: atsalvage [--yes] [SPOOL]'
  done
  knock atsalvage "$PWD/none"; refused 2 "atsalvage: $PWD/none is no directory"
}

# Without a journal nothing is damaged, and each job whose file is there waits: it asks, and names those that have an output.
case_check_salvage_without_a_journal() {
  doored; day_of_jobs
  first=$(basename "$(file_of 2)")
  extra=(ATSPOOL="$spool" TZ=UTC)
  rm "$spool/.JRN"; mkdir -p "$spool.out"; : >"$spool.out/$first"
  for answer in n '' y; do
    bytes_of "$spool" >before
    status=0; printf '%s\n' "$answer" y | env -i PATH=/usr/bin:/bin "${extra[@]}" "$door/atsalvage" >out 2>err || status=$?
    grep -qx "atsalvage: $spool has no journal: no job of it was ever started or removed, or the journal is lost" err || fail "it says $(cat err)"
    grep -qx "atsalvage: $spool.out/$first is the output of a job that would run again" err || fail "it says $(cat err)"
    [ "$answer" = y ] && break
    [ "$status" = 1 ] && [ ! -e spool.bad ] || fail "after '$answer': $status: $(cat out err)"
    bytes_of "$spool" | cmp -s - before || fail "'$answer' changes the directory"
  done
  [ "$status" = 0 ] && [ -d spool.bad ] && [ -e "$spool/.JRN" ] || fail "after a yes: $status: $(cat out err)"
  rm -rf spool.bad "$spool/.JRN"
  knock atsalvage --yes; [ "$status" = 0 ] && [ -d spool.bad ] || fail "--yes: $status: $(cat out err)"
  # a spool that never gave a number is none of these
  rm -rf spool spool.*; opened
  knock atsalvage; [ "$status $(cat err)" = "0 atsalvage: $spool has no fault: there is nothing to do" ] || fail "a new spool: $status: $(cat err)"
}

# What a salvage that was killed left is said, and --yes moves it to a name with the date.
case_check_salvage_after_a_killed_one() {
  doored; day_of_jobs; cp -a "$spool" whole
  extra=(ATSPOOL="$spool" TZ=UTC)
  for left in unfinished whole; do
    faulty_spool
    mkdir -m 700 spool.new spool.new.out; : >spool.new.lock; : >spool.new/a0000000201e187e0
    what='left by an atsalvage that did not end'
    [ $left = unfinished ] || { printf '00000004\n' >spool.new/.SEQ; what='a whole salvage that was not put in place'; }
    ls -R spool.new* >before
    knock atsalvage </dev/null
    [ "$status" = 1 ] && grep -q "^atsalvage: $spool.new is $what: 'atsalvage --yes' moves it to $spool.new.20[0-9TZ-]*, or move it away yourself\$" err \
      || fail "$left: $status: $(cat err)"
    ls -R spool.new* | cmp -s - before || fail "it changes what was $left"
    knock atsalvage --yes
    [ "$status" = 0 ] && grep -q "^atsalvage: $spool.new was $what: it is now $spool.new.20" err || fail "$left: $status: $(cat err)"
    moved=$(sed -n 's/^.* it is now //p' err)
    [ -e "$moved/a0000000201e187e0" ] && [ -e "$moved.lock" ] && [ -d "$moved.out" ] && [ ! -e spool.new ] && [ -d spool.bad ] || fail "there is $(ls -d spool*)"
  done
  # one that was killed between its two steps
  faulty_spool; mv spool spool.bad; mkdir spool.new
  knock atsalvage --yes "$spool"
  refused 1 "atsalvage: an atsalvage was cut off between its two steps: 'mv $spool.bad $spool' takes the first one back"
}

# On a terminal it says how many files it checks, and counts those that are saved.
case_check_salvage_counts() {
  needs_terminal; doored; filled 3412; cp -a "$spool" whole; faulty_spool
  extra=(ATSPOOL="$spool" TZ=UTC)
  typed "exec $door/atsalvage --yes"
  grep -qx "atsalvage: checking $spool, 3,412 job files" said || fail "it says $(grep -v "2004" said)"
  tr '\033' '\n' <said | grep -q 'saved 3,412 of 3,412' || fail "it counts $(tr '\033' '\n' <said | grep saved)"
  [ -d spool.bad ] || fail "it says $(tail -n 3 said)"
}

# The script with another atcheck, which has the real one as $real.
salvages_with() { # steps of a shell
  mkdir -p tools; ln -sf "$door/at" "$door/atstat" tools/
  printf '#!/bin/sh\nreal=%q\n%s\nexec "$real" "$@"\n' "$door/atcheck" "$1" >tools/atcheck; chmod 755 tools/atcheck
  sed "s|^tools=.*|tools='$PWD/tools'|" "$door/atsalvage" >salvage
  status=0; env -i PATH=/usr/bin:/bin "${extra[@]}" timeout 40 sh salvage --yes >out 2>err </dev/null || status=$?
}
# After any other status than those of a salvage, and where what was saved is not whole, all is as it was; and beside an atd.
case_check_salvage_goes_no_further() {
  doored; day_of_jobs; cp -a "$spool" whole; extra=(ATSPOOL="$spool" TZ=UTC)
  faulty_spool; bytes_of "$spool" >before
  stays() { bytes_of "$spool" | cmp -s - before && [ -z "$(ls -d spool.new* spool.bad* 2>/dev/null)" ] || fail "$1 leaves $(ls -d spool*): $(cat out err)"; }
  for code in 2 4 5 6; do
    salvages_with "[ \"\$*\" != '$spool' ] || exit $code"; [ "$status" = $code ] || fail "a check with $code: $status"; stays "a check with $code"
    salvages_with "case \$* in *--salvage) mkdir \"\$2\"; exit $code ;; esac"; [ "$status" = $code ] || fail "a salvage with $code: $status"; stays "a salvage with $code"
  done
  salvages_with 'case $# in 1) exit 9 ;; esac'
  [ "$status" = 9 ] && grep -qx "atsalvage: $spool.new is not whole" err || fail "what is not whole: $status: $(cat err)"; stays 'what is not whole'
  for lock in spool.out spool/.ATD; do
    case $lock in *.out) mkdir -p $lock ;; *) : >$lock ;; esac
    flock $lock sh -c ': >held; while [ ! -e go ]; do sleep 0.05; done' & awaits held
    knock atsalvage --yes; [ "$status" = 5 ] && grep -qx "atsalvage: an atd works on $spool: end it first" err || fail "beside $lock: $status: $(cat err)"
    : >go; wait; rm go held
  done
  rm spool/.ATD; stays 'an atd'
}

# It swaps under the lock of the spool, whose byte says then that anything may be unsynced. Both lists are copied, and what was
# submitted since the salvage is not thrown away.
case_check_salvage_under_the_lock() {
  doored; day_of_jobs; echo ann >spool/at.allow; cp -a "$spool" whole; extra=(ATSPOOL="$spool" TZ=UTC)
  faulty_spool; printf c >spool.lock
  salvages_with "case \$1 in *.new) flock $PWD/spool.lock sh -c ': >$PWD/held; sleep 1; [ ! -e $PWD/spool.bad ] || : >$PWD/early' >/dev/null 2>&1 & 
    until [ -e $PWD/held ]; do sleep 0.05; done; exit 0 ;; esac"
  # (whoever holds the lock looks at its end)
  flock spool.lock true
  [ "$status" = 0 ] && [ -d spool.bad ] && [ ! -e early ] || fail "it does not wait for the lock: $status, $(ls): $(cat out err)"
  [ "$(cat spool.lock)" = a ] || fail "the lock says $(cat spool.lock)"
  [ "$(stat -c '%a %s' spool/.ATD)" = '600 0' ] || fail 'there is no .ATD'
  cmp spool/at.allow whole/at.allow && [ -e spool/at.deny ] || fail "the lists are $(ls -A spool)"
  rm -rf spool spool.*; cp -a whole spool; rm spool/.JRN
  salvages_with "case \$1 in *.new) ATSPOOL=$spool TZ=UTC LOGNAME=ann PWD=/ $bin/at -t 203001010000 </dev/null 2>$PWD/said ;; esac"
  grep -q '^job 5 ' said && [ "$status" = 1 ] && grep -qx "atsalvage: $spool was changed meanwhile: call it again" err || fail "a submission meanwhile: $status: $(cat said out err)"
  [ -e "$(file_of 5)" ] && [ ! -e spool.bad ] || fail "it leaves $(ls -d spool*)"
}

# Lines that nobody reads hold no lock: a submission beside them is made.
case_check_into_a_pipe_that_nobody_reads() {
  opened
  with 'true' at -t 203001010000; took 1
  # (5,000 files whose numbers were not drawn, more lines than a pipe holds)
  for number in $(seq 2 5001); do printf '%s/a%08x01e187e0\n' "$spool" "$number"; done | xargs -n 1000 touch
  mkfifo pipe; exec 3<>pipe
  (becomes "$bin/atcheck" "$spool" >pipe 2>err_of_check </dev/null) & local child=$!
  for _ in $(seq 600); do [ -n "$(timeout 0.1 head -c 1 <&3)" ] && break; sleep 0.1; done
  kill -0 "$child" 2>/dev/null || fail 'its lines fit into the pipe'
  status=0; printf true | bare timeout 60 "$bin/at" -t 203001010000 2>err || status=$?
  [ "$status $(cat err)" = "7 at: $(basename "$(file_of 2)") damaged at 0" ] || fail "at beside it: $status, $(cat err)"
  kill -9 "$child"; wait "$child" 2>/dev/null
  exec 3>&-
}

# It asks no more of a folder than atq does.
case_check_many_jobs() {
  opened
  with 'true' at -t 203001010000; took 1
  job=$(file_of 1)
  text=$(cat "$job")
  for number in $(seq 2 10000); do
    printf -v file '%s/a%08x%s' "$spool" "$number" "${job: -8}"
    printf '%s\n' "$text" >"$file"
  done
  printf '%08x\n' 10000 >"$spool/.SEQ"
  time_of() { ( TIMEFORMAT='%U %S'; time bare "$@" >/dev/null 2>&1 </dev/null ) 2>&1 | awk '{ printf "%d", ($1 + $2) * 1000 }'; }
  user=root; time_of "$bin/atq" >/dev/null
  listed=999999 checked=999999
  for _ in 1 2 3 4 5; do
    took=$(time_of "$bin/atq"); [ "$took" -ge "$listed" ] || listed=$took
    took=$(time_of "$bin/atcheck" "$spool"); [ "$took" -ge "$checked" ] || checked=$took
  done
  [ "$checked" -le $((2 * listed)) ] || fail "10,000 jobs are checked in $checked ms and listed in $listed ms"
}
