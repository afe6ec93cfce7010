# coefhird, which packaging/install.sh installs by the name of each tool: what it sets, and what it refuses.
door=$place/pre/bin libexec=$place/pre/libexec/coefhird
me=$(id -un)

# Installs it once for all cases, also those that run at once. (Below DESTDIR no manager of units is told.)
doored() {
  (
    flock 7
    [ ! -e "$place/pre" ] || exit 0
    mkdir "$place/door" || exit 1
    DESTDIR=$place/door PREFIX=$place/pre BINARIES=$place/programs UNPROVED=yes sh "$here/../../packaging/install.sh" || exit 1
    ln -s "$place/door$place/pre" "$place/pre"
  ) 7>>"$place/door.lock" || fail 'it is not installed'
}

# Calls a tool with no variables but these and those in `extra`. The answer lies in $status, ./out and ./err.
knock() { status=0; env -i PATH=/usr/bin:/bin "${extra[@]}" timeout -k 1 40 "$door/$1" "${@:2}" >out 2>err || status=$?; }

# The same with these commands as standard input.
hand() { printf '%s' "$1" >commands; knock "${@:2}" <commands; }

# The directory, the zone and the user in the text of the job of this number.
directory_of() { sed -n "s/^cd '\(.*\)' || {\$/\1/p" "$(file_of "$1")"; }
zone_of() { sed -n "s/^TZ='\(.*\)'; export TZ\$/\1/p" "$(file_of "$1")"; }
user_of() { sed -n 's/^# at.* user=\([^ ]*\) mail=.*/\1/p' "$(file_of "$1")"; }

# Steps in a mount namespace of root, in which ./passwd has a second user with a directory in ./home, and /var/spool, /run and
# what is written to /etc are of this case alone.
apart() { # function
  [ "$(id -u)" = 0 ] && unshare -m true 2>/dev/null || skip 'only root makes a second user, in a mount namespace'
  command -v setpriv >/dev/null || skip 'there is no setpriv'
  export here
  # shellcheck disable=SC2016
  unshare -m bash -c 'for file in "$here/words.sh" "$here"/cases/*.sh; do . "$file"; done; settle_apart; "$1"' _ "$1" || exit
}
settle_apart() {
  second=at_second number=64321
  mkdir -p home/.config && chmod 755 . home && chown -R $number:$number home
  cp /etc/passwd passwd && printf '%s:*:%s:%s::%s/home:/bin/sh\n' $second $number $number "$PWD" >>passwd
  mount --bind passwd /etc/passwd && mount -t tmpfs -o mode=755 tmpfs /var/spool && mkdir -m 755 /var/spool/cron || fail 'nothing can be mounted'
}
# Becomes the second user, with these words; and as in a login of theirs.
second() { setpriv --reuid=$number --regid=$number --clear-groups "$@"; }
login() { second env -i PATH=/usr/bin:/bin LOGNAME=$second USER=$second HOME="$home" "$@"; }

# Calls a tool on a terminal, by a line of a shell. What it says lies in ./said.
typed() { # line, and what calls it
  printf '%s\n' "$1" >steps; chmod 644 steps
  "${@:2}" env -i PATH=/usr/bin:/bin SHELL=/bin/sh "${extra[@]}" script -qec ". $PWD/steps" /dev/null </dev/null 2>&1 | tr -d '\r' >said
}
# It says that line, and then a hint that has these words.
hinted() { # line, words
  [ "$(head -n 1 said)" = "$1" ] && [ "$(wc -l <said)" = 2 ] && tail -n 1 said | grep -qF -- "$2" \
    && tail -n 1 said | grep -qE '^[a-z]+: .{10,250}$' || fail "in place of '$1' and '$2' it says: $(cat said)"
}
needs_terminal() { command -v script >/dev/null || skip 'there is no script, which makes a terminal'; }

case_door_directories() {
  doored; opened
  extra=(ATSPOOL="$spool")
  mkdir -- sub 'a b' -dash $'new\nline' "it's"
  ln -s sub link
  hand pwd at -t 203001010000; took 1
  extra+=(PWD=/nowhere); hand pwd at -t 203001010000; took 2
  [ "$(directory_of 1)" = "$PWD" ] && [ "$(directory_of 2)" = "$PWD" ] || fail "the directories are $(directory_of 1), $(directory_of 2)"
  cd link || exit 1
  extra=(ATSPOOL="$spool" PWD="$PWD"); hand pwd at -t 203001010000; [ "$status" = 0 ] || fail "by a link: $(cat err)"
  cd ..
  [ "$(directory_of 3)" = "$PWD/sub" ] || fail "by a link it is $(directory_of 3)"
  printf pwd >commands; number=3
  for folder in 'a b' -dash $'new\nline' "it's"; do
    for from in "env -C" "sh -c"; do
      number=$((number + 1))
      case $from in
        'env -C') env -i PATH=/usr/bin:/bin PWD="$PWD" ATSPOOL="$spool" env -C "$PWD/$folder" "$door/at" -t 203001010000 <commands 2>err ;;
        *) env -i PATH=/usr/bin:/bin PWD=/ ATSPOOL="$spool" sh -c 'cd -- "$1" && unset PWD && exec "$2" -t 203001010000' _ "$PWD/$folder" "$door/at" <commands 2>err ;;
      esac || fail "$from in $folder: $(cat err)"
      took $number
      sh "$(file_of $number)" >ran 2>&1
      [ "$(cat ran)" = "$PWD/$folder" ] || fail "$from in $folder ran in $(cat ran)"
    done
  done
  mkdir gone; cd gone || exit 1; rmdir ../gone
  status=0; ATSPOOL=$spool "$door/at" -t 203001010000 <../commands >../out 2>../err || status=$?
  cd ..
  refused 1 'at: bad directory'
}

case_door_make() {
  command -v make >/dev/null || skip 'there is no make'
  doored; opened
  mkdir sub
  printf 'job:\n\techo true | "%s/at" -t 203001010000\n' "$door" >sub/Makefile
  ATSPOOL=$spool make -s -C sub >out 2>err || fail "make: $(cat err)"
  [ "$(directory_of 1)" = "$PWD/sub" ] || fail "the directory of make is $(directory_of 1)"
}

case_door_zones() {
  doored; opened
  [ -e /usr/share/zoneinfo/Europe/Berlin ] || skip 'there are no zone files'
  # (the time of the job is read by the zone's rule, and its TZ is the caller's)
  while IFS='|' read -r zone utc; do
    rm -rf spool; opened
    extra=(ATSPOOL="$spool" TZ="$zone")
    hand true at -t 203007012359
    [ "$status" = 0 ] || fail "TZ=$zone: $(cat err)"
    [ "$(zone_of 1)" = "$zone" ] || fail "TZ=$zone becomes $(zone_of 1)"
    ended 0 '' $'job 1 at Mon Jul  1 23:59:00 2030\n'
    extra=(ATSPOOL="$spool" TZ=UTC); knock atq; ended 0 $'1\t'"$utc"':00 2030 a '"$me"$'\n' ''
  done <<END
Europe/Berlin|Mon Jul  1 21:59
:Europe/Berlin|Mon Jul  1 21:59
/usr/share/zoneinfo/Europe/Berlin|Mon Jul  1 21:59
Asia/Kathmandu|Mon Jul  1 18:14
EST5EDT|Tue Jul  2 03:59
CET-1CEST,M3.5.0,M10.5.0/3|Mon Jul  1 21:59
<+03>-3|Mon Jul  1 20:59
JST-9|Mon Jul  1 14:59
UTC|Mon Jul  1 23:59
:Etc/UTC|Mon Jul  1 23:59
GMT|Mon Jul  1 23:59
|Mon Jul  1 23:59
END
  rm -rf spool; opened; extra=(ATSPOOL="$spool" TZ=UTC); hand true at -t 203007010000
  extra=(ATSPOOL="$spool" TZ=UTC); knock atq; ended 0 $'1\tMon Jul  1 00:00:00 2030 a '"$me"$'\n' ''
  extra=(ATSPOOL="$spool" TZ=Europe/Berlin); knock atq; ended 0 $'1\tMon Jul  1 02:00:00 2030 a '"$me"$'\n' ''
  # (where TZDIR has the zones)
  mkdir -p zones/My && cp /usr/share/zoneinfo/Asia/Kathmandu zones/My/Zone
  rm -rf spool; opened; extra=(ATSPOOL="$spool" TZ=My/Zone TZDIR="$PWD/zones"); hand true at -t 203007010000
  [ "$status" = 0 ] || fail "with TZDIR: $(cat err)"
  extra=(ATSPOOL="$spool" TZ=UTC); knock atq; ended 0 $'1\tSun Jun 30 18:15:00 2030 a '"$me"$'\n' ''
  extra=(ATSPOOL="$spool" TZ=My/Zone); hand true at -t 203007010000; refused 1 'at: bad TZ'
  for zone in Mars/Base Europe ../../../etc/passwd ':' "a b" utc Etc/utc; do
    extra=(ATSPOOL="$spool" TZ="$zone"); hand true at -t 203007010000; refused 1 'at: bad TZ'
  done
}

# A file of a zone has at most 64 KiB and ends with its rule; nothing else is read, and nobody waits for a named pipe.
case_door_zone_files() {
  doored
  zone_file() { # bytes, first bytes, last line
    { printf %s "$2"; head -c $(($1 - ${#2} - ${#3} - 2)) /dev/zero; printf '\n%s\n' "$3"; } >"$PWD/zone_file"
  }
  zoned() { rm -rf spool; opened; extra=(ATSPOOL="$spool" TZ="$PWD/zone_file"); hand true at -t 203007010000; }
  zone_file 65536 TZif2 EST5; zoned; took 1
  extra=(ATSPOOL="$spool" TZ=UTC); knock atq; ended 0 $'1\tMon Jul  1 05:00:00 2030 a '"$me"$'\n' ''
  while IFS='|' read -r bytes first last; do
    zone_file "$bytes" "$first" "$last"; zoned; refused 1 'at: bad TZ'
  done <<END
65537|TZif2|EST5
3145728|TZif2|EST5
500|TZig2|EST5
500|TZif2|5EST
500|TZif2|$(printf 'E%.0s' $(seq 62))5EST
END
  rm zone_file; mkfifo zone_file
  # (knock ends what waits)
  zoned; refused 1 'at: bad TZ'
}

# Debian's desktops and servers have no TZ, and a link at /etc/localtime. Nor have the jobs a TZ.
steps_of_localtime() {
  [ -e /usr/share/zoneinfo/Europe/Berlin ] || skip 'there are no zone files'
  opened
  mount --bind /usr/share/zoneinfo/Europe/Berlin "$(realpath /etc/localtime)" || skip 'there is no /etc/localtime'
  extra=(ATSPOOL="$spool")
  hand true at -t 203007011200; took 1
  [ -z "$(zone_of 1)" ] || fail "the zone is $(zone_of 1)"
  extra=(ATSPOOL="$spool" TZ=UTC); knock atq; ended 0 $'1\tMon Jul  1 10:00:00 2030 a root\n' ''
}
case_door_localtime() { doored; apart steps_of_localtime; }

# With no room for a further process a submission is whole, since it needs none.
steps_of_a_limit() {
  cd home || exit 1
  for limit in 1 2 3 4 5 6 7 8 50; do
    # shellcheck disable=SC2016
    LOGNAME=$second HOME=$PWD second bash -c 'ulimit -u "$1"; exec "$2" -t 203001010000' _ $limit "$door/at" <<<'echo whole' >>../said 2>&1
    # shellcheck disable=SC2016
    LOGNAME=$second HOME=$PWD second bash -c 'exec 0< <(echo echo whole); ulimit -u "$1"; exec "$2" -t 203001010000' _ $limit "$door/at" >>../said 2>&1
  done
  tail -qn 1 .local/state/coefhird/jobs/a* >../lasts
  [ -s ../lasts ] && ! grep -vx 'echo whole' ../lasts || fail "a job has a part of its commands, or none stands: $(cat ../said)"
}
case_door_no_room_for_processes() { doored; apart steps_of_a_limit; }

# Root, and a second user: by setpriv as a login of theirs, by plain su, by sudo, and with nothing but a path.
steps_of_users() {
  cd home || exit 1
  home=$PWD spool=$PWD/.local/state/coefhird/jobs
  printf true >../commands
  # What only tells of a tool makes nothing.
  for words in 'at --help' 'atd --version' 'at --spool'; do
    # shellcheck disable=SC2086
    login "$door/${words%% *}" ${words#* } >../out 2>&1
    [ ! -e .local ] || fail "$words makes a spool"
  done
  [ "$(login "$door/at" --spool)" = "$spool" ] && [ "$("$door/at" --spool)" = /var/spool/atjobs ] || fail "--spool prints $(login "$door/at" --spool), $("$door/at" --spool)"
  LOGNAME=$second HOME=$PWD second "$door/at" -t 203001010000 <../commands 2>../err || fail "as themselves: $(cat ../err)"
  [ "$(stat -c '%U %a' "$spool")" = "$second 700" ] && [ -f "$spool/at.deny" ] || fail 'their spool is not made for them alone'
  # plain su, and su -m: the names of another
  LOGNAME=root HOME=/root USER=root second "$door/at" -t 203001010000 <../commands 2>../err || fail "by plain su: $(cat ../err)"
  second env -i "$door/at" -t 203001010000 <../commands 2>../err || fail "with nothing: $(cat ../err)"
  LOGNAME=$second HOME=relative XDG_STATE_HOME=/root second "$door/at" -t 203001010000 <../commands 2>../err || fail "with another HOME: $(cat ../err)"
  su $second -c "$door/at -t 203001010000" <../commands 2>../err || fail "by su: $(cat ../err)"
  LOGNAME=$second HOME=$PWD second "$door/atq" >../out 2>../err || fail "atq: $(cat ../err)"
  [ "$(grep -c " a $second\$" ../out)" = 5 ] || fail "their jobs are $(cat ../out)"
  # root has a spool of the machine, also with their names, as plain su leaves them
  LOGNAME=$second HOME=/root "$door/at" -t 203001010000 <../commands 2>../err || fail "as root: $(cat ../err)"
  LOGNAME=$second HOME=$PWD "$door/atq" >../out 2>../err || fail "atq as root: $(cat ../err)"
  grep -q ' a root$' ../out && [ -d /var/spool/atjobs ] || fail "root's jobs are $(cat ../out)"
  if command -v sudo >/dev/null; then
    mkdir -m 777 sub; cd sub || exit 1
    sudo -n "$door/at" -t 203001010000 <../../commands 2>../../err || fail "by sudo: $(cat ../../err)"
    grep -qx "cd '$PWD' || {" "/var/spool/atjobs/a0000000201e187e0" || fail 'sudo has another directory'
    sudo -n -u $second "$door/at" -t 203001010000 <../../commands 2>../../err || fail "by sudo -u: $(cat ../../err)"
    [ -e "$spool/a0000000601e187e0" ] || fail "sudo -u has another spool"
  fi
}
case_door_users() { doored; apart steps_of_users; }

# A spool that the unit of a user had where systemd put it then.
steps_of_an_old_place() {
  printf true >commands
  for place_before in home/.config/coefhird/jobs home/state/coefhird/jobs; do
    second mkdir -p "$place_before"; second touch "$place_before/at.deny"
    XDG_STATE_HOME=$PWD/home/state LOGNAME=$second HOME=$PWD/home second "$door/at" -t 203001010000 <commands 2>err || fail "$place_before: $(cat err)"
    [ -e "$place_before/a0000000101e187e0" ] && [ ! -e home/.local ] || fail "$place_before is not taken"
    XDG_STATE_HOME=$PWD/home/state LOGNAME=$second HOME=$PWD/home second "$door/atd" -s || fail 'atd has another'
    [ -d "$place_before.out" ] || fail 'atd has another'
    rm -rf "$place_before" "$place_before.out"
  done
  # one that is not theirs is none
  mkdir -p other/coefhird/jobs && touch other/coefhird/jobs/at.deny && chmod -R 777 other
  XDG_STATE_HOME=$PWD/other LOGNAME=$second HOME=$PWD/home second "$door/at" -t 203001010000 <commands 2>err || fail "of another: $(cat err)"
  [ -e home/.local/state/coefhird/jobs/a0000000101e187e0 ] || fail 'a spool of another was taken'
}
case_door_a_spool_of_before() { doored; apart steps_of_an_old_place; }

# Wherever standard error is no terminal, what is printed and the status are the program's.
case_door_adds_nothing() {
  doored; opened
  extra=(ATSPOOL="$spool" TZ=UTC)
  while IFS='|' read -r words code text; do
    # shellcheck disable=SC2086
    hand '' $words
    refused "$code" "$text"
  done <<'END'
at|1|at: usage
at -h|1|at: usage
at --help now|1|at: usage
at -V|1|at: usage
at -l -r|1|at: usage
at -f -- noon|1|at: usage
at -q ab now|1|at: bad queue
at 830|1|at: bad time at byte 0
at -f none now|3|at: input fault
atrm 7|1|atrm: no such job 7
atd -b x|1|atd: usage
atstat --turns 2|1|atstat: usage
atday|1|atday: usage
END
  extra=(ATSPOOL="$PWD/none/spool" TZ=UTC); hand '' at noon tomorrow; refused 2 'at: spool fault'
  extra=(ATSPOOL="$spool" TZ=UTC); hand true at -q c -m noon tomorrow; took 1
  knock at -c 1; cmp -s out "$(file_of 1)" || fail 'what is shown is not the job'
  knock atday --make 8; [ "$status" = 0 ] && [ "$(head -n 1 out)" = 'events 8' ] || fail "atday says $(cat out err)"
  for tool in at batch atq atrm atstat atd atday ataccount atpost atcron atcheck atout atwhen atcrontab atsalvage atrestore; do
    knock "$tool" --help; [ "$status" = 0 ] && grep -q "^$tool" out && tail -n 1 out | grep -qE '^man [18] (at|batch)' && [ ! -s err ] || fail "$tool --help says $(cat out err)"
    knock "$tool" --version; [ "$status" = 0 ] && [ "$(head -n 1 out)" = "$tool (Coefhird) $(cat "$here/../../VERSION")" ] || fail "$tool --version says $(cat out err)"
  done
  knock at --spool; ended 0 "$spool"$'\n' ''
  hand '' at --spool now; refused 1 'at: usage'
  knock atd --version; [ "$status" = 0 ] && grep -qF " $(cat "$here/../../VERSION")" out && grep -qE '^(commit [0-9a-f]{12}, proved with .+|not proved)$' out || fail "--version says $(cat out)"
  # by another name the first word is the tool
  ln -s "$door/at" ./frob
  status=0; ATSPOOL=$spool TZ=UTC ./frob atq >out 2>err || status=$?
  [ "$status" = 0 ] && grep -q "^1	.* c $me\$" out || fail "by another name: $(cat out err)"
  status=0; ./frob now >out 2>err || status=$?; refused 1 'coefhird: usage'
  # outputs that are full or closed
  status=0; ATSPOOL=$spool TZ=UTC "$door/atq" >/dev/full 2>err || status=$?; [ "$status $(cat err)" = '4 atq: output fault' ] || fail "a full output: $status, $(cat err)"
  status=0; ATSPOOL=$spool TZ=UTC "$door/atq" >&- 2>err || status=$?; [ "$status $(cat err)" = '4 atq: output fault' ] || fail "a closed output: $status, $(cat err)"
  status=0; ATSPOOL=$spool TZ=UTC "$door/at" noon tomorrow <&- >out 2>err || status=$?; refused 3 'at: input fault'
  status=0; ATSPOOL=$spool TZ=UTC "$door/at" noon tomorrow <. >out 2>err || status=$?; refused 3 'at: input fault'
  [ "$(find spool -name 'c0*' | wc -l)" = 1 ] && [ -z "$(find spool -name 'a0*')" ] || fail "there are jobs: $(ls spool)"
}

case_door_outputs_and_times() {
  needs_atd; doored; opened
  extra=(ATSPOOL="$spool" TZ=UTC)
  hand 'echo one; echo two >&2' at now; took 1
  knock atout 1; refused 1 "atout: job 1 has no output in $spool.out"
  knock atd -s; ended 0 $'job 1 handed over\njob 1 exit 0\n' ''
  knock atout 1; ended 0 $'one\ntwo\n' ''
  knock atout 01; ended 0 $'one\ntwo\n' ''
  # the newest of several outputs of one number, and a word on the older ones, by either form of the number
  named=$(basename "$spool.out"/a00000001*)
  echo older >"$spool.out/b0000101b968a0"; touch -d '3 days ago' "$spool.out/b0000101b968a0"
  echo old >"$spool.out/Z0000000101b968a0"; touch -d '2 days ago' "$spool.out/Z0000000101b968a0"
  knock atout 1; ended 0 $'one\ntwo\n' $'atout: this is the newest; older outputs of job 1: Z0000000101b968a0 b0000101b968a0\n'
  touch "$spool.out/b0000101b968a0"; knock atout 1
  ended 0 $'older\n' "atout: this is the newest; older outputs of job 1: $named Z0000000101b968a0"$'\n'
  rm "$spool.out"/[bZ]*
  ln -s spool link; ATSPOOL=$PWD/link "$door/atout" 1 >out 2>err || fail "by a link: $(cat err)"
  # (it follows the file until it is ended)
  ATSPOOL=$spool "$door/atout" -f 1 >followed & follower=$!
  for _ in $(seq 400); do [ "$(wc -l <followed)" -lt 2 ] || break; sleep 0.05; done
  kill -0 "$follower" || fail 'atout -f ends by itself'
  kill "$follower"; wait "$follower" 2>/dev/null
  [ "$(cat followed)" = $'one\ntwo' ] || fail "atout -f prints $(cat followed)"
  for words in '' '-f' 'x' '1 2'; do
    # shellcheck disable=SC2086
    knock atout $words; refused 1 'atout: usage'
  done
  knock atwhen 8:15 jan 24, 2030; ended 0 $'Thu Jan 24 08:15:00 2030\n' ''
  knock atwhen 830; refused 1 'atwhen: bad time at byte 0'
  knock atq; ended 0 '' ''
}

# The scripts call no program of the caller's PATH.
case_door_scripts_and_the_path() {
  doored; opened
  mkdir fakes debians
  for tool in $(compgen -c | sort -u | grep -xE 'awk|basename|cat|chmod|cp|cut|date|dirname|find|flock|getent|grep|head|id|ls|mkdir|mktemp|mv|od|realpath|rm|runuser|sed|sort|stat|sync|tail|touch|tr|wc|xargs'); do
    printf '#!/bin/sh\n: >%q/called\nexit 9\n' "$PWD" >"fakes/$tool"
  done
  chmod 755 fakes/*
  printf '#!/bin/sh\n# atrun uid=%s gid=%s\n# mail root 0\numask 22\ntrue\n' "$(id -u)" "$(id -g)" >debians/a0000201e187e0; chmod 700 debians/a0000201e187e0
  printf '#!/bin/sh\n/usr/bin/head -n 1 >%q\n' "$PWD/mailed" >deliver; chmod 755 deliver; echo '@hourly x' >table
  hostile() { env -i PATH="$PWD/fakes:/usr/bin:/bin" HOME="$PWD" SENDMAIL="$PWD/deliver" ATSPOOL="$spool" TZ=UTC "$@" >said 2>&1 </dev/null; }
  hostile sh -c 'cat'; [ -e called ] || fail 'nothing is called by this PATH'
  rm called
  extra=("ATSPOOL=$spool" TZ=UTC)
  hand true at -q b -t 203001010000
  mkdir -p copy "$spool.out"; cp -a "$spool" copy/; : >"$spool.out/a0000000901e187e0"; touch -d '2 days ago' "$spool.out"/*; echo lost >"$spool.out/mail.00000007"
  while IFS='|' read -r words wanted; do
    case $words in *rotate*) printf 'A 00000001 b ann\nR 00000001\n' >"$spool/.ACC" ;; esac
    # shellcheck disable=SC2086
    hostile "$place/pre/"$words
    [ ! -e called ] || fail "$words calls a program of the caller: $(cat said)"
    grep -qF -- "$wanted" said || [ -z "$wanted" ] || fail "$words says $(cat said)"
  done <<END
bin/atwhen noon jan 24, 2030|Thu Jan 24 12:00:00 2030
bin/atout 1|job 1 has no output
bin/atcrontab -l|atcrontab: there is no
bin/atcrontab --next 1|atcrontab: there is no
sbin/atsalvage|has no journal
sbin/atsalvage --yes|is replaced
sbin/atrestore --yes $PWD/copy/spool|atrestore: $spool.bad is there
libexec/coefhird/from-debian-at $PWD/debians|bin/at -q a -t 203001010000
libexec/coefhird/from-cron $PWD/table|0 * * * * x
libexec/coefhird/send ann|
libexec/coefhird/rotate --now|
libexec/coefhird/trim|
libexec/coefhird/weekly|the mail of job 7 may be lost
bin/atusers atq|
END
  grep -q '^From: ' mailed || fail 'send mails nothing'
  [ ! -e "$spool.out/a0000000901e187e0" ] || fail 'trim removes nothing'
  ls "$spool.accounts"/*.counts >said || fail 'rotate moves nothing'
}

# A submission that is killed before its commands ended is none; as many commands as may be are one.
case_door_commands_that_do_not_come_whole() {
  doored; opened
  export ATSPOOL=$spool TZ=UTC
  { until [ -e killed ]; do sleep 0.05; done; echo true; } | "$door/at" -t 203001010000 >out 2>err &
  sleep 0.2
  kill -9 "$!"
  : >killed; wait
  [ -z "$(find spool -name 'a0*')" ] || fail 'a submission that was killed before its commands ended is a job'
  head -c 1048576 /dev/zero | tr '\0' '#' | "$door/at" -t 203001010000 2>err || fail "as many as may be: $(cat err)"
  [ "$(tail -c 1048576 "$(file_of 1)" | tr -cd '#' | wc -c)" = 1048576 ] || fail 'the commands are others'
}

# What a job has of its caller: each variable in its place, with PWD, LOGNAME and TZ set, and those of the three that were
# absent last. Whatever a shell would read of it runs nothing.
case_door_variables() {
  doored; opened
  export spool
  (
    cd() { echo no; }; command() { echo no; }; printf() { echo no; }; exec() { echo no; }
    export -f cd command printf exec
    # shellcheck disable=SC2016
    builtin exec /usr/bin/env ZONE=1 LOGNAME='$(touch hacked)' HOME='~root' PATH=/nowhere IFS=/ao ENV="$PWD/env" BASH_ENV="$PWD/env" CDPATH=/ \
      OLDPWD=/usr tool=mine ATSPOOL="$spool" TZ=JST-9 "$door/at" -t 203001010000 <<<'printf "%s\n" "$tool" "$PATH"'
  ) >out 2>err || fail "$(cat err)"
  [ ! -e hacked ] && [ "$(user_of 1)" = "$me" ] || fail "the user is $(user_of 1)"
  [ "$(zone_of 1) $(directory_of 1)" = "JST-9 $PWD" ] || fail "zone and directory are $(zone_of 1), $(directory_of 1)"
  grep -qx "OLDPWD='/usr'; export OLDPWD" "$(file_of 1)" || fail 'OLDPWD is another'
  [ "$(env -i /bin/sh "$(file_of 1)" 2>&1)" = $'mine\n/nowhere' ] || fail "the job prints $(env -i /bin/sh "$(file_of 1)" 2>&1)"
  # (a name that is none of a shell's, as of an exported function, is left out)
  names_of() { sed -nE "s/^([A-Za-z_][A-Za-z0-9_]*)='.*/\\1/p" "$(file_of "$1")" | paste -sd ' '; }
  env -i B=1 PWD=/nowhere A=2 TZ=UTC LOGNAME=x ATSPOOL="$spool" C=3 "$door/at" -t 203001010000 <<<true 2>err || fail "$(cat err)"
  [ "$(names_of 2)" = 'B PWD A TZ LOGNAME ATSPOOL C' ] || fail "the variables are $(names_of 2)"
  grep -qx "LOGNAME='$me'; export LOGNAME" "$(file_of 2)" && grep -qx "PWD='$PWD'; export PWD" "$(file_of 2)" || fail "they are $(cat "$(file_of 2)")"
  env -i B=1 ATSPOOL="$spool" A=2 "$door/at" -t 203001010000 <<<true 2>err || fail "$(cat err)"
  for mask in 0000 0027 0777; do
    (umask $mask; exec env -i ATSPOOL="$spool" "$door/at" -t 203001010000 <<<true 2>/dev/null) || fail "with umask $mask"
    grep -qx "umask $mask" "$(find "$spool/" -name 'a0*' | sort | tail -n 1)" || fail "the umask is not $mask"
  done
  case $(names_of 3) in 'B ATSPOOL A '*) ;; *) fail "the variables are $(names_of 3)" ;; esac
  [ "$(names_of 3 | tr ' ' '\n' | tail -n +4 | sort | paste -sd ' ')" = 'LOGNAME PWD' ] || fail "the variables are $(names_of 3)"
}
