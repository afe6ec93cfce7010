# Crontabs of cron: what is wrong with them here, and what they are here.

# The line of a text that atcron refuses, with what is wrong in it and the page that has what to write.
steps_of_bad_lines() {
  chmod -R a+rX "$place/pre" "$place/door" 2>/dev/null
  while IFS='|' read -r line fault; do
    printf '# a\n%s\n@daily x\n' "$line" >text; chmod 644 text
    status=0; second env -i PATH=/usr/bin:/bin "$door/atcrontab" "$PWD/text" >out 2>err </dev/null || status=$?
    printf '%s\n' 'bad crontab at line 2' "$line" "$fault" 'coefhird-crontab(5) has a table of what to write, and atcrontab --from-cron FILE converts a crontab of cron' \
      "$PWD/home/.config/coefhird/crontab is as it was" | sed 's/^/atcrontab: /' >want
    [ "$status" = 1 ] && cmp -s want err || fail "of $line: $status, $(cat err)"
  done <<'END'
*/5 * * * * x|the minute */5 has a step: write its values with commas between them
0 9 * * mon x|the weekday mon has a name: write its number
0 9 * jan * x|the month jan has a name: write its number
0 9 * * 7 x|the weekday 7 has a 7: Sunday is 0
0 24 * * * x|the hour 24 has a number that is not from 0 to 23
0 9 0 * * x|the day of the month 0 has a number that is not from 1 to 31
5-1 * * * * x|the minute 5-1 has a range that runs backwards
1,* * * * * x|the minute 1,* has a * that does not stand alone
001 * * * * x|the minute 001 has no number or range: 001
* * * * *|an entry has five fields and a command
@daily x|@daily is no time here: an entry has five fields and a command
MAILTO=ann|a crontab sets no variables, and atpost(8) sends mail
PATH=/bin|a crontab sets no variables: set them in the command
END
}
case_cron_bad_lines() { doored; apart steps_of_bad_lines; }

# A year of the examples of crontab(5), of the crontabs of this machine and of 300 lines. atcron takes what comes of each.
case_cron_from_cron() {
  command -v python3 >/dev/null || skip 'there is no python3 to read crontabs'
  doored; opened; mkdir texts
  python3 "$here/compare_crons.py" "$libexec/from-cron" texts >said 2>&1 || fail "$(cat said)"
  grep -qE '^[0-9]+ entries, [0-9]+ tests of a day$' said || fail "it says $(cat said)"
  for text in texts/*.posix; do
    mkdir -m 700 one && : >one/at.deny
    call atcron "$PWD/one" -f "$text" --turns 1 </dev/null; ended 0 '' ''
    [ -s one/.CRON ] || fail "$text marks no minute"
    rm -r one one.lock one.out
  done
}

# The words of atcrontab: a file, standard input, one that is not there, and the crontabs of the system with their user column.
steps_of_from_cron() {
  chmod -R a+rX "$place/pre" "$place/door" 2>/dev/null
  converts() { status=0; second env -i PATH=/usr/bin:/bin "$door/atcrontab" --from-cron "$1" >out 2>err || status=$?; }
  printf 'MAILTO=ann\n@hourly x\n' >text
  for file in "$PWD/text" text -; do
    converts "$file" <text
    ended 1 $'0 * * * * x\n' $'atcrontab: line 1 has no equivalent: MAILTO=ann: atpost(8) mails to the user of a job\n'
  done
  printf '@hourly root x\n' >a=b; converts a=b; ended 0 $'0 * * * * root x\n' ''
  for file in /nowhere/at_all "$PWD"; do converts "$file"; refused 1 "atcrontab: $file can not be read"; done
  [ ! -e home/.config/coefhird ] || fail 'a crontab is made'
  # (what cron takes for itself sets no variable of a command)
  while IFS='|' read -r line why; do
    printf '%s\n@hourly x\n' "$line" >text; converts text
    ended 1 $'0 * * * * x\n' "atcrontab: line 1 has no equivalent: $line: $why"$'\n'
  done <<'END'
CRON_TZ=UTC|the whole crontab is read in the zone that atcron has as TZ
MAILFROM=ann|atpost(8) mails to the user of a job
CONTENT_TYPE=text/plain|atpost(8) sets it by what the job printed
SHELL=/bin/bash|commands are run by /bin/sh
LOGNAME=ann|it is the user of atcron
END
  [ -d /etc/cron.d ] && mount -t tmpfs -o mode=755 tmpfs /etc/cron.d || return 0
  printf '@hourly root x\n@daily %s y\n' "$second" >/etc/cron.d/two
  for file in /etc/cron.d/two ./link; do
    ln -sf /etc/cron.d/two link
    converts $file
    ended 1 $'0 0 * * * y\n' $'atcrontab: line 1 has no equivalent: @hourly root x: it is for root, who has a crontab and an atcron of their own\n'
  done
}
case_cron_from_cron_words() { doored; apart steps_of_from_cron; }

# Jobs that atcron submits: a test of the day comes to the command today, and not on another weekday, and a command with its
# standard input and its variables prints what it prints under cron.
case_cron_from_cron_runs() {
  needs_atd; doored; opened
  # (a field that begins with * takes both: this day of the month, where it is that weekday)
  printf '* * */1 %d %d echo today\n* * */1 %d %d echo never\n' "$(date -u +%-m)" "$(date -u +%w)" "$(date -u +%-m)" $((($(date -u +%w) + 1) % 7)) >text
  cat >>text <<'END'
A = "5% of it's "
* * * * * printf '<\%s>' 'a\\b\%' "$A"; cat%x\\%y%
END
  "$libexec/from-cron" text >table || fail 'it names a line'
  crons_in_a_minute; ended 0 '' ''
  [ "$(ls "$spool" | grep -c '^a0')" = 3 ] || fail "the jobs are $(ls "$spool")"
  call atd -s </dev/null; [ "$status" = 0 ] || fail "atd: $(cat err)"
  [ "$(cat "$spool.out"/a*)" = $'today\n<a\\b%><5% of it\'s >x\\%y' ] || fail "the jobs print $(cat "$spool.out"/a*)"
}
