# What keeps the files of a spool short: the account is split, and empty outputs are removed.

# (they need no directory for temporary files)
rotates() { status=0; env -i TMPDIR=/nowhere ATSPOOL="$spool" "$libexec/rotate" "$@" >out 2>err </dev/null || status=$?; }
trims() { status=0; env -i TMPDIR=/nowhere ATSPOOL="$spool" "$libexec/trim" >out 2>err </dev/null || status=$?; ended 0 '' ''; }

# The line of ataccount(8) that adds totals.
added() {
  cat "$@" | awk '{ k = $1 " " $2; for (i = 3; i <= 9; i++) n[k, i] += $i; s[k] }
    END { for (k in s) { l = k; for (i = 3; i <= 9; i++) l = l " " n[k, i]; print l } }' | LC_ALL=C sort
}

# An account of so many closed jobs, with jobs of these numbers after them that wait, which are in the spool.
accounted() { # closed, waiting
  opened
  awk -v closed="$1" 'BEGIN { for (i = 1; i <= closed; i++) printf "A %08x a ann\nS %08x\nF %08x\n", i, i, i }' >"$spool/.ACC"
  printf '%08x\n' "$1" >"$spool/.SEQ"
  for ((made = 0; made < $2; made++)); do with true at -q b -t 203001010000; took $(($1 + made + 1)); done
}

case_account_split() {
  needs_atd; doored; opened
  rotates; ended 0 '' ''
  [ ! -e "$spool.accounts" ] || fail 'a spool without an account has some'
  with 'true' at now; took 1
  with 'true' at -t 203001010000; took 2
  user=ben with 'true' at -q b -t 203001010000; took 3
  looks
  rotates; ended 0 '' ''
  [ -z "$(ls -A "$spool.accounts")" ] || fail "an account without closed jobs is split: $(ls "$spool.accounts")"
  call atrm 2 </dev/null; ended 0 '' ''
  call atd -s </dev/null; [ "$status" = 0 ] || fail "atd: $(cat err)"
  call ataccount "$spool" --show </dev/null; cp out before; cp "$spool/.ACC" account
  rotates; ended 0 '' ''
  [ "$(cat "$spool".accounts/*.counts)" = 'ann a 2 1 1 0 0 1 0' ] || fail "the counts are $(cat "$spool".accounts/*.counts)"
  [ "$(cat "$spool/.ACC")" = 'A 00000003 b ben' ] || fail "the new account begins with $(cat "$spool/.ACC")"
  [ "$(stat -c %a "$spool/.ACC" "$spool.accounts" "$spool".accounts/*.records | tr '\n' ' ')" = '600 700 600 ' ] || fail 'the rights are others'
  sort "$spool".accounts/*.records "$spool/.ACC" | cmp -s - <(sort account) || fail 'a record is lost or there twice'
  # once a month, but for --now; each job is in one file of counts
  user=ben call atrm 3 </dev/null; ended 0 '' ''
  with 'true' at -t 203001010000; took 4
  rotates; ended 0 '' ''
  [ "$(ls "$spool.accounts" | wc -l)" = 2 ] || fail 'it is split twice in a month'
  rotates --now; ended 0 '' ''
  call ataccount "$spool" --show </dev/null
  [ "$(ls "$spool".accounts/*.counts | wc -l)" = 2 ] || fail "there are $(ls "$spool.accounts")"
  [ "$(added "$spool".accounts/*.counts out)" = $'ann a 3 1 1 0 0 1 0\nben b 1 0 0 0 0 1 0' ] || fail "the totals are $(added "$spool".accounts/*.counts out)"
  # the records are an account, whose totals are the counts
  mkdir -m 700 again && : >again/at.deny && printf 'ffffffff\n' >again/.SEQ
  for file in "$spool".accounts/*.records; do
    cp "$file" again/.ACC; call ataccount "$PWD/again" --show </dev/null; ended 0 "$(cat "${file%.records}.counts")"$'\n' ''
  done
}

case_account_split_when_long() {
  needs_atd; doored
  accounted 29999 2; looks
  mkdir "$spool.accounts" && : >"$spool.accounts/$(date -u +%Y-%m)-01T000000.records" && : >"$spool.accounts/$(date -u +%Y-%m)-01T000000.counts"
  rotates; ended 0 '' ''
  [ "$(wc -l <"$spool/.ACC")" = 89999 ] || fail 'it is split below 90,000 records'
  with true at -q b -t 203001010000; took 30002; looks
  rotates; ended 0 '' ''
  [ "$(wc -l <"$spool/.ACC") $(cat "$spool".accounts/*.counts)" = '3 ann a 29999 29999 29999 0 0 0 0' ] || fail "at 90,000 records: $(cat "$spool".accounts/*.counts)"
  # one that is full, which no look can note anything in
  rm -r "$spool" "$spool".*; accounted 33333 3
  call ataccount "$spool" </dev/null; refused 1 'ataccount: accounts full'
  rotates; ended 0 '' $'ataccount: accounts full\n'
  looks; shows $'ann b 3 0 0 0 0 0 0\n'
}

case_account_split_refused() {
  doored; accounted 3 0
  rotates now; refused 1 'rotate: usage: rotate [--now]'
  rotates --now x; refused 1 'rotate: usage: rotate [--now]'
  printf 'S 00000001\n' >"$spool/.ACC"
  rotates --now; refused 7 'ataccount: .ACC damaged at 0'
  [ "$(cat "$spool/.ACC")" = 'S 00000001' ] && [ ! -e "$spool.accounts" ] || fail 'a damaged account is changed'
}

# Wherever it is killed, each record is in the account or beside it, once.
case_account_split_that_is_killed() {
  needs_atd; doored; accounted 300 2; looks
  cp "$spool/.ACC" account
  local place first line round=0 old=0 new=0
  read -r first <account
  # (as soon as there is a second file, as soon as the account is replaced, and so many seconds after the second file came)
  for place in next{,,,,,,,} replaced{,,,,,,,} 0.00{1,2,3,4,5,6,7,8,9} 0.0{1,2,3,4,5,6}; do
    round=$((round + 1))
    cp account "$spool/.ACC"; rm -rf "$spool.accounts"
    setsid env -i ATSPOOL="$spool" "$libexec/rotate" --now >/dev/null 2>&1 </dev/null &
    child=$!
    until [ -e "$spool.accounts/next" ] || ! kill -0 $child 2>/dev/null; do :; done
    case $place in
      next) ;;
      replaced) until { read -r line <"$spool/.ACC"; [ "$line" != "$first" ]; } || ! kill -0 $child 2>/dev/null; do :; done ;;
      *) sleep "$place" ;;
    esac
    kill -9 -- -$child 2>/dev/null; wait $child 2>/dev/null
    # (cut off before the account was replaced, or after it)
    [ ! -e "$spool.accounts/next" ] || if cmp -s account "$spool/.ACC"; then old=$((old + 1)); else new=$((new + 1)); fi
    looks
    rotates --now; ended 0 '' ''
    [ ! -e "$spool.accounts/next" ] && [ ! -e "$spool/.ATMP" ] || [ -z "$(ls -d "$spool.accounts"/*.new "$spool.accounts".* 2>/dev/null)" ] || fail "round $round: something stays: $(ls "$spool.accounts")"
    cat "$spool".accounts/*.records "$spool/.ACC" | sort | cmp -s - <(sort account) || fail "round $round: a record is lost or there twice"
    [ "$(added "$spool".accounts/*.counts)" = 'ann a 300 300 300 0 0 0 0' ] || fail "round $round: $(cat "$spool".accounts/*.counts)"
  done
  [ $old -ge 1 ] && [ $new -ge 1 ] || fail "of $round, $old were cut off before the account was replaced and $new after it"
}

# A step that failed after it was made loses no record.
case_account_split_whose_step_fails() {
  needs_strace; needs_atd; doored; accounted 5 1; looks
  cp "$spool/.ACC" account
  # (a program is ended as it comes back from its call of this number that takes this path)
  while read -r calls which path; do
    rm -rf "$spool.accounts"; cp account "$spool/.ACC"
    "$strace" -f -o /dev/null ${path:+-P "$path"} -e trace="$calls" -e inject="$calls:signal=KILL:when=$which" \
      env -i ATSPOOL="$spool" "$libexec/rotate" --now >out 2>err </dev/null && fail "$calls $which $path: no step failed"
    rotates --now; ended 0 '' ''
    cat "$spool".accounts/*.records "$spool/.ACC" | sort | cmp -s - <(sort account) || fail "$calls $which $path: a record is lost or there twice"
  done <<STEPS
fsync 1
fsync 2
fsync 3
fsync 4
rename,renameat,renameat2 1 $spool/.ATMP
fsync 1 $spool
rename,renameat,renameat2 1 $spool.accounts/next
STEPS
}

# Both halves are on the disk before the account is replaced, and the new account is before the old half has its name.
case_account_split_in_order() {
  needs_strace; needs_atd; doored; accounted 5 1
  strace -f -y -o calls -e trace=fsync,rename,renameat,renameat2 env -i ATSPOOL="$spool" "$libexec/rotate" --now >out 2>err </dev/null || fail "$(cat err)"
  sed -n '/fsync.*accounts.next/,$p' calls | sed -nE -e "s|.*fsync\([0-9]+<$PWD/?([^>]*)>.*|sync \1|p" \
    -e 's|.*rename[a-z0-9]*\(.*"[^"]*/([^"/]*)".*"[^"]*/([^"/]*)".* = 0$|\1 becomes \2|p' | sed -E 's/[0-9-]+T[0-9]+/DATE/g' >steps
  printf '%s\n' 'sync spool.accounts/next' 'sync spool/.ATMP' 'sync spool.accounts' 'sync ' '.ATMP becomes .ACC' 'sync spool' \
    'next becomes DATE.records' 'sync spool.accounts' 'DATE.counts.new becomes DATE.counts' | cmp -s - steps \
    || fail "the steps are $(cat steps)"
}

case_outputs_trimmed() {
  needs_atd; doored; opened
  trims
  with 'true' at now; took 1
  with 'echo hi' at now; took 2
  with 'true' at -t 203001010000; took 3
  with 'true' at now; took 4
  with "echo \$\$ >'$PWD/sleeper'; exec sleep 60" at now; took 5
  call atpost "$spool" --send /bin/true --turns 1 </dev/null; ended 0 '' ''
  (becomes "$bin/atd" --turns 1 >/dev/null 2>&1) & wait $!
  awaits_text sleeper
  trap 'kill "$(cat sleeper)" 2>/dev/null' EXIT
  running=$(basename "$(file_of 5)")
  [ -e "$spool.out/$running" ] && [ -e "$spool/$running" ] || fail 'the job that runs has no output'
  # outputs that are there: of jobs that wait, of the forms of before, of notices, and of nobody
  : >"$spool.out/$(basename "$(file_of 3)")"
  for name in a0000101b968a0 a0000000101b968a0 z000ff01b968a0 mail.00000001 mail.00000002 mail.00000009 notes .hidden mail.1 a00000001; do : >"$spool.out/$name"; done
  : >"$spool/mail.00000002"
  ls -A "$spool.out" >all; trims
  ls -A "$spool.out" | cmp -s - all || fail 'a young file is removed'
  touch -d '2 days ago' "$spool.out"/* "$spool.out"/.hidden
  trims
  # no notice was sent yet, so the outputs of its jobs stay
  printf '%s\n' "$running" "$(basename "$(ls "$spool.out"/?00000003*)")" a0000101b968a0 a0000000101b968a0 mail.00000002 notes .hidden mail.1 a00000001 \
    "$(cd "$spool.out" && ls ?00000001?* ?00000002* ?00000004*)" | tr ' ' '\n' | sort -u >want
  ls -A "$spool.out" | sort | cmp -s - want || fail "there stay $(ls -A "$spool.out"), not $(cat want)"
  # an atd that gives up the job that runs: its process has the output open
  call atd -s </dev/null; [ "$status" = 0 ] || fail "atd: $(cat err)"
  [ ! -e "$spool/$running" ] || fail 'the job that ran has its file'
  call atpost "$spool" --send /bin/true --turns 1 </dev/null; ended 0 '' ''
  told; call atpost "$spool" --send /bin/true --turns 1 </dev/null; ended 0 '' ''
  touch -d '2 days ago' "$spool.out"/*; trims
  [ -e "$spool.out/$running" ] || fail 'the output of a process that goes on is removed'
  [ "$(output_of 2)" = hi ] || fail 'an output is removed'
  kill "$(cat sleeper)"; for round in $(seq 200); do kill -0 "$(cat sleeper)" 2>/dev/null || break; sleep 0.1; done
  rm -f "$spool/mail.00000002"; trims
  printf '%s\n' "$(cd "$spool.out" && ls ?00000002* ?00000003*)" notes .hidden mail.1 a00000001 | sort >want
  ls -A "$spool.out" | sort | cmp -s - want || fail "at the end there stay $(ls -A "$spool.out"), not $(cat want)"
}

# Where a list can't be made whole nothing is removed; and a trim that is killed leaves nothing beside the spool.
case_outputs_trimmed_of_no_whole_list() {
  doored; opened; with true at -t 203001010000; took 1
  mkdir -p "$spool.out"; : >"$spool.out/a0000000901e187e0"; touch -d '2 days ago' "$spool.out"/*
  ls -A . >before
  for fault in 's/^    names=.*/    false || return/' "s/^    flock .*/    { echo busy; return; }/" 's/^    echo whole$/    kill -9 $$/'; do
    sed "$fault" "$libexec/trim" >trim; cmp -s trim "$libexec/trim" && fail "$fault is none"
    status=0; env -i ATSPOOL="$spool" sh trim >out 2>err </dev/null || status=$?; rm trim
    case $fault in *names*) refused_status=2 ;; *busy*) refused_status=5 ;; *) refused_status=137 ;; esac
    [ "$status" = $refused_status ] && [ -e "$spool.out/a0000000901e187e0" ] || fail "$fault: $status: $(cat out err)"
  done
  rm -f out err; ls -A . | grep -vxE 'spool.lock|commands' | diff - <(grep -vxE 'spool.lock|commands|out|err' before) || fail 'something stays'
  trims; [ ! -e "$spool.out/a0000000901e187e0" ] || fail 'the empty output stays'
}

# The notes of jobs that are done go as an atpost starts, unless it is to make a number of sessions; those that wait stay.
case_notes_trimmed_at_the_start() {
  needs_atd; doored; opened
  with 'true' at -m now; took 1
  with 'true' at -m -t 203001010000; took 2
  call atpost "$spool" --send /bin/true --turns 1 </dev/null; ended 0 '' ''
  call atd -s </dev/null; [ "$status" = 0 ] || fail "atd: $(cat err)"
  call atpost "$spool" --send /bin/true --turns 1 </dev/null; ended 0 '' ''
  told; knock atpost "$spool" --send /bin/true --turns 1 </dev/null; ended 0 '' ''
  [ "$(cut -d ' ' -f 1,2 "$spool/.MAIL")" = $'N 00000001\nN 00000002\nS 00000001' ] || fail "the notes are $(cat "$spool/.MAIL")"
  (exec env -i PATH=/usr/bin:/bin TZ=UTC "$place/pre/sbin/atpost" "$spool" --send /bin/true >/dev/null 2>said </dev/null) & post=$!
  for _ in $(seq 400); do [ "$(wc -l <"$spool/.MAIL")" != 1 ] || break; sleep 0.05; done
  kill "$post" || fail "atpost is gone: $(cat said)"
  [ "$(cut -d ' ' -f 1,2 "$spool/.MAIL")" = 'N 00000002' ] && [ ! -s said ] || fail "the notes are $(cat "$spool/.MAIL" said)"
}

# Half a minute of all programs, and a judge that finds what is altered afterwards.
case_soak() {
  command -v python3 >/dev/null || skip 'there is no python3'
  KEEP=1 BINARIES=$place/programs TMPDIR=$PWD "$here/../soak" 30 >said || fail "$(cat said)"
  [ "$(sed '/^kept: /d; /^said: /d' said | tail -n 1)" = sound ] || fail "$(cat said)"
  cat said
  cd at_soak.* || exit 1
  judged() { python3 "$here/../soak_judge.py" "$PWD/spool" | tail -n 1; }
  [ "$(judged)" = sound ] || fail "judged again: $(judged)"
  altered() { # file, what sed does to it
    cp "$1" kept; sed -i "$2" "$1"
    cmp -s kept "$1" && fail "$1 is not altered by $2"
    [ "$(judged)" != sound ] || fail "the judge is content where $1 is altered by $2"
    cp kept "$1"
  }
  altered starts '1p'; altered starts 1d; altered turns '/handed/{p;:a;n;ba}'; altered accepted 1d; altered removed 1d
  altered notes '/^S/d'; altered waiting 1d; altered shown 's/ [1-9][0-9]*/ 0/'
  mkdir gone && mv messages/* gone/; [ "$(judged)" != sound ] || fail 'the judge is content without messages'
}
