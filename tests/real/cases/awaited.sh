# What tests/real/awaited.txt names: tests/real/run leaves these out until a line of it goes.

# Root's atcheck of a user's spool made the lock there as root's, and wrote where a link of the user led.
steps_of_a_check_of_another() {
  home=$PWD/home spool=$PWD/home/spool
  second mkdir -m 700 "$spool"; second touch "$spool/at.deny"; echo keep >kept
  login ATSPOOL="$spool" "$door/at" -t 203001010000 <<<true 2>err || fail "$(cat err)"
  rm -rf "$spool".*
  listed() { find home kept -printf '%p %u %m %s %T@\n' | sort; }
  for beside in nothing link; do
    [ $beside = nothing ] || { ln -s "$PWD/kept" "$spool.lock" && chown -h $number:$number "$spool.lock"; }
    listed >before
    for words in "$spool" "$spool --salvage" "$spool $PWD/saved --salvage"; do
      # shellcheck disable=SC2086
      knock atcheck $words; refused 2 'atcheck: spool fault'
    done
    listed | diff before - >difference && [ ! -e saved ] || fail "root leaves, beside $beside: $(cat difference)"
    rm -f "$spool.lock"
  done
  [ "$(login ATSPOOL="$spool" "$door/atcheck"; echo $?)" = 0 ] || fail 'its user can not check it'
}
case_door_atcheck_of_another() { doored; apart steps_of_a_check_of_another; }

# A list of the machine that users can't read: what root publishes of it counts.
steps_of_lists_that_are_closed() {
  home=$PWD/home
  mkdir etc && mount -t tmpfs tmpfs etc && mkdir etc/up etc/work \
    && mount -t overlay overlay -o "lowerdir=/etc,upperdir=$PWD/etc/up,workdir=$PWD/etc/work" /etc 2>/dev/null || skip 'there is no overlay'
  cp passwd /etc/passwd; rm -f /etc/at.allow /etc/at.deny
  mount -t tmpfs -o mode=755 tmpfs /run || fail 'nothing can be mounted'
  # name, mode and names of each list, and what is published of it: - is none
  while IFS='|' read -r list mode names published wanted; do
    rm -rf /etc/at.allow /etc/at.deny /run/coefhird home/.local
    [ "$list" = - ] || { printf '%s\n' $names >"/etc/$list"; chmod "$mode" "/etc/$list"; }
    [ "$published" = none ] || mkdir /run/coefhird
    case $published in none | -) ;; *) printf '%s\n' "$published" >"/run/coefhird/$list" ;; esac
    for tool in at batch atq atstat; do
      words=; [ $tool != at ] || words='-t 203001010000'
      # shellcheck disable=SC2086
      status=0; login "$door/$tool" $words <<<true >out 2>err || status=$?
      if [ "$wanted" = 1 ]; then refused 1 "$tool: not allowed"; else [ "$status" = 0 ] || fail "$list $mode $names, $published: $tool: $(cat err)"; fi
      env -i "$door/$tool" $words <<<true >/dev/null 2>said || fail "root is refused: $(cat said)"
    done
    [ "$wanted" = 0 ] || [ ! -e home/.local ] || fail 'a spool is made for a user whom the lists refuse'
  done <<END
at.deny|640|$second|$second|1
at.deny|640|$second|other|0
at.deny|640|other|-|1
at.allow|640|$second|$second|0
at.allow|640|other|other|1
at.allow|640|$second|-|1
at.deny|644|other|$second|0
at.deny|644|$second|other|1
at.deny|640|$second|none|0
END
  # where nobody publishes, a line says that the list can't be read
  rm -rf /etc/at.allow /etc/at.deny /run/coefhird; printf '%s\n' $second >/etc/at.deny; chmod 640 /etc/at.deny
  login "$door/at" -t 203001010000 <<<true 2>err || fail "it says $(cat err)"
  [ "$(wc -l <err)" = 2 ] && head -n 1 err | grep -q '^at: .*/etc/at.deny' && tail -n 1 err | grep -q '^job ' || fail "it says $(cat err)"
  # above 4 MB a list refuses, whatever is in it
  { echo other; head -c 4194304 /dev/zero | tr '\0' '\n'; } >/etc/at.deny; chmod 644 /etc/at.deny
  login "$door/at" -t 203001010000 <<<true >out 2>err && fail "a list above 4 MB is none: $(cat err)"
  grep -qx 'at: not allowed' err || fail "it says $(cat err)"
}
case_door_lists_that_are_closed() { doored; apart steps_of_lists_that_are_closed; }

# A user whose name is a number: systemd and other programs would take it for that of another user.
steps_of_a_name_of_digits() {
  home=$PWD/home
  sed "s/^$second:/64399:/" passwd >renamed && cat renamed >passwd
  for words in 'at -t 203001010000' batch atq; do
    # shellcheck disable=SC2086
    status=0; second env -i HOME="$home" LOGNAME=64399 "$door/${words%% *}" ${words#"${words%% *}"} <<<true >out 2>err || status=$?
    refused 1 "${words%% *}: bad user name"
  done
  sed "s/^64399:/64399a:/" passwd >renamed && cat renamed >passwd
  second env -i HOME="$home" LOGNAME=64399a "$door/at" -t 203001010000 <<<true 2>err || fail "digits and a letter: $(cat err)"
}
case_door_a_name_of_digits() { doored; apart steps_of_a_name_of_digits; }

# Ten bytes of .SEQ decide: one of 8 GB is not read whole.
case_door_a_long_sequence_file() {
  needs_strace; doored; opened
  extra=(ATSPOOL="$spool" TZ=UTC)
  for size in 10 8589934592; do
    printf '00000001\n' >"$spool/.SEQ"; truncate -s $size "$spool/.SEQ"
    status=0
    env -i PATH=/usr/bin:/bin "${extra[@]}" timeout -k 1 20 "$strace" -o traced -y -e trace=read,pread64,readv,mmap "$door/atq" >out 2>err </dev/null || status=$?
    refused 7 'atq: .SEQ damaged at 9'
    read_bytes=$(grep -F "<$here_is/spool/.SEQ>" traced | sed -n 's/.* = //p' | awk '{ bytes += $1 } END { print bytes + 0 }')
    [ "$read_bytes" -ge 10 ] && [ "$read_bytes" -le 4096 ] || fail "of $size bytes it reads $read_bytes"
  done
}

# Root's atcron takes no crontab that another user owns, or that everybody may write.
steps_of_a_crontab_of_another() {
  # (what lies next to a spool is its user's too)
  mkdir -m 700 roots && mkdir -p own/theirs && chmod 700 own own/theirs && : >roots/at.deny && : >own/theirs/at.deny && chown -R $number:$number own
  while IFS='|' read -r caller owner mode wanted; do
    printf '* * * * * true\n' >table; chown "$owner" table; chmod "$mode" table
    case $caller in
      root) spool=$PWD/roots by=() ;;
      *) spool=$PWD/own/theirs by=(setpriv --reuid=$number --regid=$number --clear-groups) ;;
    esac
    find "$spool" -mindepth 1 ! -name at.deny -delete
    status=0; env -i PATH=/usr/bin:/bin TZ=UTC "${by[@]}" timeout 40 "$door/atcron" "$spool" -f "$PWD/table" --turns 1 >out 2>err </dev/null || status=$?
    made=$(find "$spool" -name 'a0*' | wc -l)
    case $wanted in
      yes) [ "$status $made" = '0 1' ] && [ ! -s err ] || fail "$caller, $owner, $mode: $status, $made jobs: $(cat err)" ;;
      no) [ "$status" != 0 ] && [ "$made" = 0 ] && [ ! -e "$spool/.CRON" ] && [ "$(wc -l <err)" = 1 ] && grep -q '^atcron: ' err || fail "$caller, $owner, $mode: $status, $made jobs: $(cat err)" ;;
    esac
  done <<END
root|0:0|600|yes
root|0:0|644|yes
root|0:0|666|no
root|0:0|602|no
root|$number:$number|600|no
root|$number:$number|644|no
second|$number:$number|600|yes
second|0:0|644|yes
second|$number:$number|666|no
second|64330:64330|644|no
END
}
case_door_a_crontab_of_another() { doored; apart steps_of_a_crontab_of_another; }

# The request is made before the call: who was answered has asked. Where none can be made a line says so before the accepted one.
steps_of_a_request() {
  needs_strace
  home=$PWD/home
  mount -t tmpfs -o mode=755 tmpfs /run && mkdir /run/coefhird && mkdir -m 1733 /run/coefhird/wake || fail 'nothing can be mounted'
  woken() { find /run/coefhird/wake -type f -empty -user $second | wc -l; }
  (exec setpriv --reuid=$number --regid=$number --clear-groups env -i PATH=/usr/bin:/bin LOGNAME=$second HOME="$home" setsid \
    "$strace" -o /dev/null -P "$home/err" -e trace=write -e inject=write:delay_exit=20000000 "$door/at" -t 203001010000 <<<true 2>home/err) &
  for _ in $(seq 400); do grep -qs '^job 1 at' home/err && break; sleep 0.05; done
  kill -9 -- "-$!"; wait "$!" 2>/dev/null
  grep -q '^job 1 at' home/err && [ "$(woken)" = 1 ] || fail "one that is killed as it answers: $(woken) requests: $(cat home/err)"
  rm /run/coefhird/wake/*
  # what atcron submits is asked for too, and nothing where no minute is due
  printf '* * * * * true\n' >table; printf '0 0 30 2 * true\n' >never; chmod 644 table never
  login TZ=UTC "$door/atcron" -f "$PWD/table" --turns 1 >out 2>err </dev/null || fail "atcron: $(cat err)"
  [ "$(woken)" -ge 1 ] || fail 'what atcron submits asks for no atd'
  rm -f /run/coefhird/wake/*
  for word in closed full; do
    case $word in
      closed) chmod 0700 /run/coefhird/wake ;;
      full) chmod 0755 /run/coefhird/wake && mount -t tmpfs -o mode=1733,nr_inodes=1 tmpfs /run/coefhird/wake || fail 'nothing can be mounted' ;;
    esac
    login "$door/at" -t 203001010000 <<<true 2>err || fail "$word: $(cat err)"
    [ "$(wc -l <err)" = 2 ] && head -n 1 err | grep -q '^at: .*/run/coefhird/wake' && tail -n 1 err | grep -q '^job ' || fail "$word: it says $(cat err)"
  done
}
case_door_a_request_first() { doored; apart steps_of_a_request; }

# Whether an atd runs is asked of the file, by its disk and its number: another disk has a file of that number, with a lock.
steps_of_two_disks() {
  home=$PWD/home
  mount -t tmpfs -o mode=755 tmpfs /run && mkdir one two && mount -t tmpfs -o mode=777 tmpfs one && mount -t tmpfs -o mode=777 tmpfs two || fail 'nothing can be mounted'
  spool=$PWD/one/spool; second mkdir -m 700 "$spool"; second touch "$spool/at.deny"
  extra=(LOGNAME=$second HOME="$home" ATSPOOL="$spool" TZ=UTC)
  typed "echo true | $door/at -t 203001010000" second
  [ "$(wc -l <said)" = 2 ] || fail "without an atd it says: $(cat said)"
  wanted=" $(stat -c %i "$spool.out" 2>/dev/null) $(stat -c %i "$spool/.ATD" 2>/dev/null) "
  for file in $(seq 200); do : >two/$file; done
  for file in two/*; do
    case $wanted in *" $(stat -c %i $file) "*) locked="${locked:-} $file" ;; esac
  done
  [ -n "${locked:-}" ] || skip 'no two files have one number'
  for file in $locked; do flock $file sh -c ': >>held; while [ ! -e go ]; do sleep 0.05; done' & done
  awaits held; sleep 0.3
  typed "echo true | $door/at -t 203001010000" second; : >go; wait
  [ "$(wc -l <said)" = 2 ] && tail -n 1 said | grep -q 'no atd runs' || fail "beside locks of another disk it says: $(cat said)"
}
case_door_a_lock_of_another_disk() { needs_terminal; doored; apart steps_of_two_disks; }

# After an accepted -m the job is noted at once, where atpost keeps notes: it may end before atpost looks again.
case_mail_noted_at_once() {
  needs_atd; doored; opened; extra=(ATSPOOL="$spool" TZ=UTC)
  printf '#!/bin/sh\ncat >>%q/mailed\n' "$PWD" >post; chmod 755 post
  hand true at -m -t 203001010000; took 1
  [ ! -e "$spool/.MAIL" ] || fail 'notes are made where no atpost was'
  knock atpost "$spool" --send "$PWD/post" --turns 1; [ "$status" = 0 ] || fail "atpost: $(cat err)"
  noted() { cut -d ' ' -f 1,2 "$spool/.MAIL" | paste -sd ','; }
  [ "$(noted)" = 'N 00000001' ] || fail "the notes are $(noted)"
  hand true at -m now; took 2
  [ "$(noted)" = 'N 00000001,N 00000002' ] && [ ! -e "$spool/.MTMP" ] || fail "after -m the notes are $(noted)"
  knock atd -s; [ "$status" = 0 ] || fail "atd: $(cat err)"
  # it sends nothing, and removes nothing
  hand true at -m -t 203001010000; took 3
  [ "$(noted)" = 'N 00000001,N 00000002,N 00000003' ] && [ ! -e mailed ] || fail "a third: $(noted) $(cat mailed)"
  knock atpost "$spool" --send "$PWD/post" --turns 1; [ "$status" = 0 ] || fail "atpost: $(cat err)"
  for _ in $(seq 100); do [ ! -s mailed ] || break; sleep 0.1; done
  [ "$(cat mailed)" = 'job 2 exit 0' ] || fail "it mails $(cat mailed)"
}

# Twenty restarts of atpost without a gap, each as it has started a notice, lose none.
case_mail_of_restarts() {
  needs_atd; doored; opened; extra=(ATSPOOL="$spool" TZ=UTC)
  printf '#!/bin/sh\nhead -n 1 >>%q/mailed\n' "$PWD" >post; chmod 755 post; : >mailed
  begins() { (exec env -i PATH=/usr/bin:/bin "${extra[@]}" "$door/atpost" --send "$PWD/post" >>posted 2>&1 </dev/null) & post=$!; }
  trap 'kill "$post" 2>/dev/null' EXIT
  begins
  for job in $(seq 20); do
    mark=$(printf %08x "$job")
    hand true at -m now; took "$job"
    for _ in $(seq 400); do grep -qs "^N $mark" "$spool/.MAIL" && break; sleep 0.05; done
    knock atd -s; [ "$status" = 0 ] || fail "atd: $(cat err)"
    for _ in $(seq 2000); do grep -qs "^S $mark" "$spool/.MAIL" && break; sleep 0.01; done
    grep -q "^[SN] $mark" "$spool/.MAIL" || fail "job $job has no note: $(cat posted)"
    # (one that ends between a mark and its child has sent nothing, and the next one does not send it)
    for _ in $(seq 50); do pgrep -f "mail\\.$mark" >/dev/null && break; sleep 0.01; done
    kill "$post"; wait "$post" 2>/dev/null; begins
  done
  for _ in $(seq 100); do [ "$(wc -l <mailed)" -lt 20 ] || break; sleep 0.1; done
  [ "$(sort -u mailed | wc -l) $(wc -l <mailed)" = '20 20' ] || fail "of 20 notices $(sort -u mailed | wc -l) came, in $(wc -l <mailed) mails: $(sort posted | uniq -c)"
}
