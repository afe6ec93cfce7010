# The tools: their words, statuses and texts.

case_refused_words() {
  opened
  while IFS='|' read -r words code text; do
    # shellcheck disable=SC2086
    with '' $words
    refused "$code" "$text"
  done <<'END'
at|1|at: usage
at -l -r|1|at: usage
at -l -m|1|at: usage
at -l -q a 1|1|at: usage
at -r -m 1|1|at: usage
at -c|1|at: usage
at -t 203001010000 noon|1|at: usage
at -V|1|at: usage
at --help|1|at: usage
at -q a -q b noon|1|at: usage
at -f -- noon|1|at: usage
at -q ab now|1|at: bad queue
at -q = now|1|at: bad queue
atq -q ab|1|atq: bad queue
atq 1|1|atq: usage
atrm|1|atrm: usage
atrm 0|1|atrm: usage
atrm 4294967296|1|atrm: usage
batch now|1|batch: usage
atd -b x|1|atd: usage
atd -l 1.234|1|atd: usage
atd --turns 0|1|atd: usage
atd -s now|1|atd: usage
program atday|1|atday: usage
program atday --make 2001|1|atday: usage
at 830|1|at: bad time at byte 0
at 13pm|1|at: bad time at byte 2
at 8:60|1|at: bad time at byte 2
at noon jan|1|at: bad time at byte 8
at noon xyz|1|at: bad time at byte 5
at noon feb 30|1|at: no such day
at -t 202501240815.61|1|at: bad -t time
at -t 200001010000|1|at: time is past
at noon jan 1, 9999|1|at: time out of range
at now + 999999 years|1|at: time out of range
at -f none now|3|at: input fault
atrm 7|1|atrm: no such job 7
at -r 7|1|at: no such job 7
at -c 7|1|at: no such job 7
at -l 7|1|at: no such job 7
END
  with '' at ''
  refused 1 'at: bad time at byte 0'
  [ ! -e "$spool/.SEQ" ] || fail 'a refused command drew a number'
}

case_other_names_of_the_program() {
  opened
  with '' program frob now
  refused 1 'at: usage'
  with 'true' program at noon tomorrow
  took 1
  with '' program atq
  grep -q '^1	.* a ann$' out || fail "no list: $(cat out err)"
  ln -s "$bin/program" ./at
  status=0; bare ./at -c 1 >out 2>err || status=$?
  cmp -s out "$(file_of 1)" || fail 'a link of another folder does not show the job'
  with '' at $'now\xff'
  refused 1 'at: usage'
}

case_refused_callers() {
  opened
  zone=Mars/Base with '' at noon tomorrow
  refused 1 'at: bad TZ'
  for user in '' 'a b' -x "$(printf 'u%.0s' $(seq 33))"; do
    with '' at noon tomorrow
    refused 1 'at: bad user name'
  done
  user=ann
  status=0; env -i ATSPOOL="$spool" LOGNAME=ann PWD=home "$bin/at" noon tomorrow >out 2>err </dev/null || status=$?
  refused 1 'at: bad directory'
  status=0; env -i ATSPOOL="$spool" LOGNAME=ann "$bin/at" noon tomorrow >out 2>err </dev/null || status=$?
  refused 1 'at: bad directory'
  large=$(head -c 100000 /dev/zero | tr '\0' x)
  extra=(A="$large" B="$large" C="$large")
  with '' at noon tomorrow
  refused 1 'at: environment too large'
}

case_lengths_of_commands() {
  opened
  head -c 1048577 /dev/zero | tr '\0' '#' >long
  call at -f long noon tomorrow </dev/null
  refused 1 'at: commands too long'
  call at noon tomorrow <long
  refused 1 'at: commands too long'
  [ ! -e "$spool/.SEQ" ] || fail 'a refused command drew a number'
  head -c 1048576 long >fits
  call at noon tomorrow <fits
  took 1
  tail -c 1048576 "$(file_of 1)" | cmp -s - fits || fail 'the job has not all of its commands'
  call at noon tomorrow </dev/null
  took 2
}

case_submit_list_show_remove() {
  opened
  with 'echo hi' at -t 203001010830
  ended 0 '' $'job 1 at Tue Jan  1 08:30:00 2030\n'
  [ "$(cat "$spool/.SEQ")" = 00000001 ] || fail 'the number that was drawn is not kept'
  [ "$(file_of 1)" = "$spool/a00000001$(printf %08x $(($(date -u -d '2030-01-01 08:30' +%s) / 60)))" ] || fail "the file is $(file_of 1)"
  with 'echo ho' at -q c -m 9:15 pm jan 2, 2030
  ended 0 '' $'job 2 at Wed Jan  2 21:15:00 2030\n'
  printf 'echo he\n' >file
  with '' at -f file -t 202912312359
  ended 0 '' $'job 3 at Mon Dec 31 23:59:00 2029\n'
  lines=$'3\tMon Dec 31 23:59:00 2029 a ann\n1\tTue Jan  1 08:30:00 2030 a ann\n2\tWed Jan  2 21:15:00 2030 c ann\n'
  with '' atq; ended 0 "$lines" ''
  with '' at -l; ended 0 "$lines" ''
  with '' atq -q c; ended 0 $'2\tWed Jan  2 21:15:00 2030 c ann\n' ''
  with '' at -l -q d; ended 0 '' ''
  with '' at -l 2 3 2; ended 0 $'3\tMon Dec 31 23:59:00 2029 a ann\n2\tWed Jan  2 21:15:00 2030 c ann\n' ''
  with '' at -c 1
  cmp -s out "$(file_of 1)" || fail 'what is shown is not the job'
  [ "$(sed -n 2p out)" = '# at user=ann mail=0' ] && [ "$(tail -n 1 out)" = 'echo hi' ] || fail "the job's text is $(cat out)"
  [ "$(sed -n 2p "$(file_of 2)")" = '# at user=ann mail=1' ] || fail 'the mail is not asked for'
  with '' atrm 1 99; refused 1 'atrm: no such job 99'
  [ -e "$(file_of 1)" ] || fail 'a refused removal removed'
  with '' atrm 1 1; ended 0 '' ''
  with '' atrm 1; refused 1 'atrm: no such job 1'
  with '' at -r 2 3; ended 0 '' ''
  with '' atq; ended 0 '' ''
  with 'true' batch
  took 4
  with '' batch -f file
  took 5
  with '' atq -q b
  [ "$(grep -cE '^[45]	.* b ann$' out)" = 2 ] || fail "the batch jobs are listed as $(cat out)"
  [ "$(tail -n 1 "$(file_of 5)")" = 'echo he' ] || fail 'the commands of the file are lost'
  with 'true' at -qz -- now
  took 6
}

case_zones() {
  opened
  zone=EST5EDT,M3.2.0,M11.1.0
  with '' at -t 203007010000
  ended 0 '' $'job 1 at Mon Jul  1 00:00:00 2030\n'
  zone=UTC
  with '' atq; ended 0 $'1\tMon Jul  1 04:00:00 2030 a ann\n' ''
  zone=
  with '' atq; ended 0 $'1\tMon Jul  1 04:00:00 2030 a ann\n' ''
}

case_two_users() {
  opened
  with 'true' at -t 203001010000; took 1
  user=bob with 'true' at -t 203001010000; took 2
  with '' atq; ended 0 $'1\tTue Jan  1 00:00:00 2030 a ann\n' ''
  user=bob with '' atq; ended 0 $'2\tTue Jan  1 00:00:00 2030 a bob\n' ''
  user=root with '' atq; ended 0 $'1\tTue Jan  1 00:00:00 2030 a ann\n2\tTue Jan  1 00:00:00 2030 a bob\n' ''
  with '' atrm 2; refused 1 'atrm: job 2 is not yours'
  with '' at -c 2; refused 1 'at: job 2 is not yours'
  with '' at -l 2; refused 1 'at: job 2 is not yours'
  user=root with '' atrm 2; ended 0 '' ''
}

case_the_lists() {
  mkdir -m 700 spool
  with 'true' at noon tomorrow; refused 1 'at: not allowed'
  with '' atq; refused 1 'atq: not allowed'
  user=root with 'true' at noon tomorrow; took 1
  printf 'bob\n' >spool/at.allow; : >spool/at.deny
  with 'true' at noon tomorrow; refused 1 'at: not allowed'
  user=bob with 'true' at noon tomorrow; took 2
  printf ' ann \t\nbob' >spool/at.allow; printf 'ann\n' >spool/at.deny
  with 'true' at noon tomorrow; took 3
  rm spool/at.allow
  with 'true' at noon tomorrow; refused 1 'at: not allowed'
  user=bob with 'true' at noon tomorrow; took 4
}
