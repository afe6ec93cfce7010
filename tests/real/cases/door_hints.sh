# On a terminal a tool of the package says after a refusal or a fault what to do, in one line. Elsewhere not a byte is added.

# Each cause that a call can be brought to; without a case are a clock out of range, which a test can't set, and want of memory.
case_door_hints() {
  needs_terminal; doored; opened; opened empty; rm empty/at.deny
  : >"$PWD/file"
  opened damaged; printf 0 >damaged/.SEQ
  opened used; printf 'ffffffff\n' >used/.SEQ
  opened taken; printf 'ann\n' >taken/at.allow
  opened full; awk 'BEGIN { for (i = 1; i <= 100001; i++) printf "A %08x a ann\n", i }' >full/.ACC
  printf '* * * x\n' >table
  while IFS='|' read -r folder zone words line hint; do
    extra=(ATSPOOL="$folder" TZ="$zone")
    typed "$door/$words"
    hinted "$line" "$hint"
  done <<END
$spool|UTC|at </dev/null|at: usage|at --help
$spool|UTC|atq x|atq: usage|atq --help
$spool|UTC|atstat --turns 2|atstat: usage|atstat --help
$spool|UTC|atcheck x y z|atcheck: usage|atcheck --help
$spool|UTC|at 830 </dev/null|at: bad time at byte 0|8:15 tomorrow
$spool|UTC|at noon feb 30 </dev/null|at: no such day|8:15 tomorrow
$spool|UTC|at -t 202001010000 </dev/null|at: time is past|from now on
$spool|UTC|at now + 9000 years </dev/null|at: time out of range|9999
$spool|UTC|at -t 1 </dev/null|at: bad -t time|[[CC]YY]MMDDhhmm[.SS]
$spool|Mars/Base|at now </dev/null|at: bad TZ|Europe/Berlin
$spool|UTC|at -q ab now </dev/null|at: bad queue|one letter
$spool|UTC|at -f $PWD/none now|at: input fault|the file of the commands
$spool|UTC|atrm 7|atrm: no such job 7|atq
$spool|UTC|atstat -w 7|atstat: no such job 7|atq
$spool|UTC|atcheck $PWD/empty $PWD/used --salvage|atcheck: target not empty|a directory
$PWD/full|UTC|ataccount|ataccount: accounts full|ataccount(8)
$PWD/used|UTC|at -t 203001010000 </dev/null|at: job numbers used up|atjobs(5)
$PWD/damaged|UTC|atq|atq: .SEQ damaged at 1|atjobs(5)
$spool|UTC|atcron -f $PWD/table --turns 1|atcron: bad crontab at line 1|coefhird-crontab(5)
$PWD/none/spool|UTC|at now </dev/null|at: spool fault|$PWD/none is not there
$PWD/file|UTC|at now </dev/null|at: spool fault|$PWD/file is no
END
  extra=(ATSPOOL="$spool" TZ=UTC)
  typed "head -c 1048577 /dev/zero | tr '\\0' '#' | $door/at now"; hinted 'at: commands too long' 'into a file'
  typed "A=\$(head -c 90000 /dev/zero | tr '\\0' x) B=\$A C=\$A; export A B C; exec $door/at now </dev/null"; hinted 'at: environment too large' 'env -i'
  typed "mkdir gone; cd gone; rmdir ../gone; exec $door/at now </dev/null"; hinted 'at: bad directory' 'cd to another'
  typed "echo true | $door/at now 2>/dev/null; exec $door/atq >/dev/full"; hinted 'atq: output fault' 'lines were lost'
  typed "$door/atcheck $PWD/damaged >/dev/null"; hinted 'atcheck: spool has faults' 'atjobs(5)'
  # Where nothing is refused it adds no line, and neither does it where standard error is no terminal.
  typed "$door/atq"; [ "$(wc -l <said)" = 1 ] && grep -q " a $me\$" said || fail "it says: $(cat said)"
  knock atrm 7; refused 1 'atrm: no such job 7'
}

# A job that runs, a daemon that does, and 10,000 jobs.
case_door_hints_of_jobs() {
  needs_terminal; needs_atd; doored; opened
  extra=(ATSPOOL="$spool" TZ=UTC)
  hand 'touch begun; while [ ! -e go ]; do sleep 0.05; done' at now; took 1
  ATSPOOL=$spool TZ=UTC "$door/atd" >served 2>&1 </dev/null &
  trap 'kill $! 2>/dev/null; : >go' EXIT
  awaits begun
  typed "$door/atrm 1"; hinted 'atrm: job 1 is running' 'kill'
  typed "$door/atd -s"; hinted 'atd: spool busy' 'fuser'
  : >go
  filled 10000 many
  extra=(ATSPOOL="$spool" TZ=UTC)
  typed "$door/at -t 203001010000 </dev/null"; hinted 'at: queue full' '10,000 jobs'
}

# Who may use a spool, by its lists; the user's name; a job of somebody else.
steps_of_hints_of_users() {
  home=$PWD/home
  spool=$PWD/home/spool; mkdir -m 700 "$spool"; : >"$spool/at.deny"
  printf '#!/bin/sh\n# at user=other mail=0\numask 0022\ncd '\''/'\'' || {\n\techo '\''Execution directory inaccessible'\'' >&2\n\texit 1\n}\ntrue\n' >"$spool/a0000000101e187e0"
  printf '00000001\n' >"$spool/.SEQ"; chown -R $number:$number "$spool"
  extra=(HOME="$home" LOGNAME="$second" ATSPOOL="$spool" TZ=UTC)
  typed "$door/atrm 1" second; hinted 'atrm: job 1 is not yours' 'atq lists yours'
  while IFS='|' read -r allow deny hint; do
    rm -f "$spool/at.allow" "$spool/at.deny"
    [ "$allow" = - ] || echo "$allow" >"$spool/at.allow"
    [ "$deny" = - ] || echo "$deny" >"$spool/at.deny"
    typed "$door/atq" second; hinted 'atq: not allowed' "$hint"
  done <<END
other|-|$second is to stand in $spool/at.allow
-|$second|$second stands in $spool/at.deny
-|-|an empty file $spool/at.deny lets everyone in
END
  sed "s/^$second:/a_second_name_that_is_over_32_letters:/" passwd >renamed && cat renamed >passwd
  : >"$spool/at.deny"
  typed "$door/atq" second; hinted 'atq: bad user name' '32 letters'
}
case_door_hints_of_users() { needs_terminal; doored; apart steps_of_hints_of_users; }

# What is wrong with a spool that can't be used: a disk without room, one that takes no writes, rights.
steps_of_places() {
  home=$PWD/home
  mkdir disk && mount -t tmpfs -o size=64k,mode=777 tmpfs disk || fail 'no small disk can be mounted'
  mkdir -m 700 disk/spool disk/spool.out && : >disk/spool/at.deny && : >disk/spool.lock && chown -R $number:$number disk/spool*
  head -c 90000 /dev/zero >disk/filler 2>/dev/null
  mkdir read && mount -t tmpfs -o mode=777 tmpfs read && mkdir -m 700 read/spool read/spool.out && : >read/spool/at.deny && : >read/spool.lock \
    && chown -R $number:$number read/spool* && mount -o remount,ro "$PWD/read" || fail 'no disk can be read alone'
  mkdir -m 755 closed
  mkdir -m 700 home/shut && : >home/shut/at.deny && chown -R $number:$number home/shut && chmod 500 home/shut
  while IFS='|' read -r folder hint; do
    extra=(LOGNAME=$second HOME="$home" ATSPOOL="$folder" TZ=UTC)
    typed "$door/at -t 203001010000 </dev/null" second
    hinted 'at: spool fault' "$hint"
  done <<END
$PWD/disk/spool|$PWD/disk is full
$PWD/read/spool|$PWD/read takes no writes
/var/spool/atjobs|/var/spool is not yours to write
$PWD/closed/spool|$PWD/closed is not yours to write
$home/shut|$home/shut is not yours to read and write
END
}
case_door_hints_on_places() { needs_terminal; doored; apart steps_of_places; }

# Where no daemon will run a job, a line says what starts one; on a terminal alone.
steps_of_no_daemon() {
  home=$PWD/home
  mount -t tmpfs -o mode=755 tmpfs /run || fail 'nothing can be mounted'
  extra=(LOGNAME=$second HOME="$home" TZ=UTC)
  typed "echo true | $door/at -t 203001010000" second
  [ "$(head -n 1 said)" = 'job 1 at Tue Jan  1 00:00:00 2030' ] && [ "$(wc -l <said)" = 2 ] && tail -n 1 said | grep -q 'setsid -f atd' || fail "it says: $(cat said)"
  login TZ=UTC "$door/at" -t 203001010000 <<<true 2>err; [ "$(cat err)" = 'job 2 at Tue Jan  1 00:00:00 2030' ] || fail "it says: $(cat err)"
  (exec setpriv --reuid=$number --regid=$number --clear-groups env -i LOGNAME=$second HOME="$home" TZ=UTC "$door/atd") >/dev/null 2>&1 </dev/null &
  spool=$PWD/home/.local/state/coefhird/jobs awaits_atd
  typed "echo true | $door/at -t 203001010000" second
  kill $!
  [ "$(cat said)" = 'job 3 at Tue Jan  1 00:00:00 2030' ] || fail "beside a daemon it says: $(cat said)"
}
case_door_no_daemon() { needs_terminal; needs_atd; doored; apart steps_of_no_daemon; }
