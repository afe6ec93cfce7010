# Crontabs: what is due is submitted, each minute at most once.

# A call of atcron of so many turns.
crons() { call atcron "$spool" -f table --turns "$1" </dev/null; }
# Calls it once, so that it begins and ends in one minute, $minute.
crons_in_a_minute() {
  local begun
  while :; do
    begun=$(($(date +%s) / 60))
    crons 1
    minute=$(($(date +%s) / 60))
    [ "$begun" != "$minute" ] || return 0
    rm -rf "$spool" "$spool.lock" "$spool.out"; opened
  done
}

case_cron_of_a_minute() {
  opened
  printf '# of each minute\n* * * * * echo first\n\n* * * * * cat%%a%%b\n59 23 31 12 * echo never\n' >table
  crons_in_a_minute; ended 0 '' ''
  [ "$(cat "$spool/.CRON")" = "$(printf '%08x' "$minute")" ] || fail "the mark is $(cat "$spool/.CRON"), not of $minute"
  names=$(cd "$spool" && ls)
  [ "$names" = "$(printf 'a%08x%08x\n' 1 "$minute" 2 "$minute")"$'\nat.deny' ] || fail "the files are $names"
  [ "$(tail -n 1 "$(file_of 1)")" = 'echo first' ] || fail "job 1 is $(cat "$(file_of 1)")"
  [ "$(sh "$(file_of 2)")" = $'a\nb' ] || fail "job 2 prints $(sh "$(file_of 2)")"
  [ "$(sed -n 2p "$(file_of 1)")" = '# at user=ann mail=0' ] || fail "the header is $(sed -n 2p "$(file_of 1)")"
  # once more in the same minute, or in the next one
  before=$(ls "$spool" | grep -c '^a0'); crons 1; ended 0 '' ''
  after=$(ls "$spool" | grep -c '^a0')
  [ "$(($(date +%s) / 60)) $after" = "$minute $before" ] || [ "$(($(date +%s) / 60))" != "$minute" ] || fail 'a minute is submitted twice'
  if [ "$after" = "$before" ]; then
    # an older mark lets it go on
    printf '%08x\n' $((minute - 1)) >"$spool/.CRON"; crons 1; ended 0 '' ''
    [ "$(ls "$spool" | grep -c '^a0')" = $((before + 2)) ] || fail 'the next minute has no jobs'
  fi
}

case_cron_refused() {
  opened
  : >table
  for words in '' '-f' 'table' '-f table x' '-f table --turns 0' '-f table -f table' '--turns 1'; do
    # shellcheck disable=SC2086
    call atcron "$spool" $words </dev/null; refused 1 'atcron: usage'
  done
  call atcron </dev/null; refused 1 'atcron: usage'
  call atcron -f table </dev/null; refused 1 'atcron: usage'
  [ ! -e "$spool.lock" ] || fail 'refused words enter the spool'
  for text in '60 * * * * x' '*/5 * * * * x' '@daily x' 'MAILTO=ann' '* * * * 7 x' '* * * * *'; do
    printf '# a\n\n%s\n* * * * * x\n' "$text" >table
    crons 1; refused 1 'atcron: bad crontab at line 3'
  done
  rm table; crons 1; refused 3 'atcron: input fault'
  mkdir table; crons 1; refused 3 'atcron: input fault'; rmdir table
  head -c 65537 /dev/zero | tr '\0' '#' >table; crons 1; refused 1 'atcron: commands too long'
  head -c 65536 /dev/zero | tr '\0' '#' >table; crons 1; ended 0 '' ''
  printf '* * * * * x\n' >table
  printf 'A' >"$spool/.CRON"; crons 1; refused 7 'atcron: .CRON damaged at 0'
  [ "$(cat "$spool/.CRON")" = A ] || fail 'a damaged mark is changed'
  printf 'fbb38480\n' >"$spool/.CRON"; crons 1; refused 7 'atcron: .CRON damaged at 6'
  printf 'fbb3847f\n' >"$spool/.CRON"; crons 1; ended 0 '' ''
  [ "$(ls "$spool" | grep -c '^a0')" = 0 ] || fail 'a mark far ahead lets jobs through'
  rm "$spool/.CRON"
  zone=Nowhere/Zone crons 1; refused 1 'atcron: bad TZ'
  printf 0 >"$spool/.SEQ"; crons 1; refused 7 'atcron: .SEQ damaged at 1'
}

# Where its mark is ahead of the clock it says for how long it submits nothing.
case_cron_of_a_mark_ahead() {
  doored; opened
  printf '* * * * * x\n' >table
  extra=(ATSPOOL="$spool" TZ=UTC)
  printf '%08x\n' $(($(date +%s) / 60 + 90)) >"$spool/.CRON"
  knock atcron -f "$PWD/table" --turns 1
  [ "$status" = 0 ] && grep -qxE "atcron: $spool/\.CRON is (89|90) minutes ahead of the clock, and atcron submits nothing until then" err \
    || fail "status $status: $(cat err)"
  printf '%08x\n' $(($(date +%s) / 60)) >"$spool/.CRON"
  knock atcron -f "$PWD/table" --turns 1; ended 0 '' ''
}

# Three minutes with an atd beside it, the crontab replaced, cut in the middle, gone and back, and twenty kills: each minute
# has its jobs at most once, and most have them.
case_long_cron_of_three_minutes() {
  needs_atd; opened
  log=$PWD/log
  : >"$log"
  line="* * * * * echo \$(( \$(date +\\%s) / 60 )) >>'$log'"
  printf '%s\n' "$line" >good
  cp good table
  (becomes "$bin/atd" >/dev/null 2>&1) & daemon=$!
  # (as a unit starts it again)
  (while [ ! -e ended ]; do becomes "$bin/atcron" "$spool" -f table >>said 2>&1 & echo $! >child; wait $!; sleep 0.5; done) & keeper=$!
  from=$(date +%s) round=0 kills=0
  # (a little longer where a kill often found nobody)
  while [ $(($(date +%s) - from)) -lt 185 ] || { [ $kills -lt 20 ] && [ $(($(date +%s) - from)) -lt 260 ]; }; do
    round=$((round + 1))
    case $((round % 7)) in
      1) cp good new && mv new table ;;
      3) printf '* * * *' >table ;;
      4) rm -f table ;;
      5) cp good new && mv new table ;;
    esac
    sleep "$((RANDOM % 9)).$((RANDOM % 10))"
    kill -9 "$(cat child)" 2>/dev/null && kills=$((kills + 1))
  done
  : >ended; kill -9 "$(cat child)" "$daemon" 2>/dev/null; wait "$keeper" "$daemon" 2>/dev/null
  [ "$kills" -ge 20 ] || fail "it was killed $kills times"
  # (the minutes of the jobs, not those in which they ran)
  twice=$(ls "$spool.out" "$spool" | grep -E '^a[0-9a-f]{16}$' | sort -u | cut -c 10- | sort | uniq -d)
  jobs=$(ls "$spool.out" | grep -c '^a')
  [ -z "$twice" ] || fail "minutes with two jobs: $twice"
  [ "$jobs" -ge 2 ] || fail "only $jobs minutes came: $(sort said | uniq -c)"
}

# A second user edits: a bad line is named and the old file stays, a good one is taken.
steps_of_atcrontab() {
  chmod -R a+rX "$place/pre" "$place/door" 2>/dev/null
  [ ! -d /run/systemd/system ] || mount -t tmpfs tmpfs /run/systemd || fail 'nothing can be mounted'
  table=home/.config/coefhird/crontab
  [ ! -d /run/coefhird ] || mount -t tmpfs tmpfs /run/coefhird || fail 'nothing can be mounted'
  none="atcrontab: nothing runs it: start it by setsid -f atcron -f $PWD/$table"
  # (it needs no directory for temporary files)
  edits() { status=0; second env -i PATH=/usr/bin:/bin TMPDIR=/nowhere EDITOR="$2" "$door/atcrontab" $1 >out 2>err </dev/null || status=$?; }
  edits -l; refused 1 "atcrontab: there is no $PWD/$table"
  printf '#!/bin/sh\nprintf "30 8 * * 1-5 run\\n" >"$1"\n' >good; printf '#!/bin/sh\nprintf "30 8 * * 1-5 run\\n61 * * * * x\\n" >"$1"\n' >spoils
  chmod 755 good spoils
  edits -e "$PWD/good"; ended 0 '' "$none"$'\n'
  [ "$(cat $table) $(stat -c '%a %u' $table)" = "30 8 * * 1-5 run 600 $number" ] || fail "the file is $(cat $table) $(stat -c '%a %u' $table)"
  edits -e "$PWD/spoils"; [ "$status" = 1 ] && [ "$(head -n 1 err)" = 'atcrontab: bad crontab at line 2' ] || fail "a bad line: $status, $(cat err)"
  edits -l; ended 0 $'30 8 * * 1-5 run\n' ''
  edits -e true; ended 0 '' $'atcrontab: nothing is changed\n'
  edits -e false; refused 1 'atcrontab: the editor failed: nothing is changed'
  printf '0 0 * * * later\n' >other; chmod 644 other
  edits "$PWD/other"; ended 0 '' "$none"$'\n'; [ "$(cat $table)" = '0 0 * * * later' ] || fail "a file: $(cat $table)"
  # the next minutes, of the file itself and of another; a number that is none, and no file
  lists() {
    [ "$status $(wc -l <out)" = "0 $2" ] && [ ! -s err ] || fail "status $status: $(cat out err)"
    [ "$(grep -cE "^[A-Z][a-z]{2} [A-Z][a-z]{2} [ 0-9][0-9] 00:00:00 [0-9]{4}	$1\$" out)" = "$2" ] || fail "next minutes: $(cat out)"
  }
  edits '--next 3'; lists later 3
  printf '0 0 1 * * first\n0 0 30 2 * never\n' >third; chmod 644 third
  edits "--next 1 $PWD/third"; [ "$(tail -n 1 out)" = $'not within nine years\tnever' ] || fail "of no minute: $(cat out)"
  sed -i '$d' out; lists first 1
  edits '--next 0'; refused 1 'atcron: usage'
  edits "--next 1 $PWD/absent"; refused 3 'atcron: input fault'
  # a mark of a clock that was once ahead, and one of this minute
  mark=home/.local/state/coefhird/jobs/.CRON
  second mkdir -p "${mark%/*}"
  printf '%08x\n' $(($(date +%s) / 60 + 90)) >$mark; edits "$PWD/other"
  grep -qE "^atcrontab: $PWD/$mark is (89|90) minutes ahead of the clock, and atcron submits nothing until then: see atcron\(8\)\$" err || fail "of a mark ahead: $(cat err)"
  printf '%08x\n' $(($(date +%s) / 60)) >$mark; edits "$PWD/other"; ended 0 '' "$none"$'\n'
  rm $mark
  # one that was killed before it renamed its file: the next call removes its files, and no others, nor those of one that goes on
  printf '#!/bin/sh\nkill -KILL $PPID\n' >killer; chmod 755 killer; second touch $table.mine $table.backup
  mount --bind killer "$(realpath /usr/bin/sync)" || fail 'nothing can be mounted'
  edits "$PWD/other" 2>/dev/null; [ "$status" = 137 ] && [ "$(ls home/.config/coefhird | wc -l)" = 4 ] || fail "a killed one: $status, $(ls home/.config/coefhird)"
  umount "$(realpath /usr/bin/sync)"
  edits "$PWD/other"; ended 0 '' "$none"$'\n'
  [ "$(ls home/.config/coefhird | paste -sd ' ')" = 'crontab crontab.backup crontab.mine' ] || fail "a killed one leaves $(ls home/.config/coefhird)"
  rm $table.mine $table.backup
  printf '#!/bin/sh\n: >%q; while [ ! -e %q ]; do sleep 0.05; done; printf "1 8 * * * slow\\n" >"$1"\n' "$PWD/home/open" "$PWD/go" >slow; chmod 755 slow
  (edits -e "$PWD/slow" >/dev/null; echo "$status" >ended_slow) & awaits home/open
  edits "$PWD/other"; cp "$table" beside; : >go; wait
  [ "$(cat beside)" = '0 0 * * * later' ] && [ "$(cat ended_slow) $(cat $table)" = '0 1 8 * * * slow' ] || fail "beside another: $(cat ended_slow $table)"
  # nothing can be made there: nothing is changed, and no program's own words come
  chmod 500 home/.config/coefhird; edits "$PWD/other"; refused 1 "atcrontab: nothing can be made in $PWD/home/.config/coefhird"
  [ "$(cat $table)" = '1 8 * * * slow' ] || fail "the file is $(cat $table)"; chmod 700 home/.config/coefhird
  edits -r; ended 0 '' ''; [ ! -e $table ] || fail 'the file is not removed'
  for words in '' '-x' '-e -l' 'a b' '--from-cron' '--from-cron a b' '--next' '--next 1 a b'; do
    edits "$words"; refused 1 'atcrontab: usage: atcrontab -e | -l | -r | --from-cron FILE | --next COUNT [FILE] | FILE'
  done
  [ -z "$(ls home/.config/coefhird)" ] || fail "there stays $(ls home/.config/coefhird)"
}
case_cron_atcrontab() { doored; apart steps_of_atcrontab; }

# A day that comes once in eight years, since 2100 has no February 29: it is searched for that long.
case_cron_next_after_eight_years() {
  command -v cc >/dev/null || skip 'there is no cc'
  doored; opened
  cc -shared -fPIC "-DFROM=$(date -u -d '2096-03-01' +%s)LL" -o clock.so "$here/told_clock.c" || fail 'the clock is not compiled'
  printf '0 0 29 2 * x\n' >table
  extra=(ATSPOOL="$spool" TZ=UTC LD_PRELOAD="$PWD/clock.so")
  knock atcron -f table --next 1
  [ "$status" = 0 ] && grep -q 'Feb 29 00:00:00 2104' out && ! grep -q 2096 out || fail "it says: $status: $(cat out err)"
}
