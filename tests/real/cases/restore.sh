# A copy that is put back: the drill of atrestore(8), and what it refuses.

# One session of atpost, whose notices are files of ./notices, a line of the job each.
notices() {
  [ -e post ] || { printf '#!/bin/sh\nhead -n 1 >>%q\n' "$PWD/notices" >post; chmod 755 post; : >notices; }
  call atpost "$spool" --send "$PWD/post" --turns 1 </dev/null; ended 0 '' ''; told
}
jobs_run() { call atd -s </dev/null; [ "$status" = 0 ] || fail "atd: $(cat err)"; }
restores() { status=0; env -i PATH=/usr/bin:/bin ATSPOOL="$spool" TZ=UTC timeout 120 "$door/atrestore" "$@" >out 2>err </dev/null || status=$?; }
# A spool in which job 1 has run, jobs 2 to 4 wait, and 5 ran without a notice yet; and its copy, by the page.
copied() {
  needs_atd; doored; opened; rm -rf copy post; mkdir copy
  with 'echo one' at -m now; took 1
  notices; looks; jobs_run; notices; looks
  env -i ATSPOOL="$spool" "$libexec/rotate" --now || fail 'the account is not split'
  with 'echo two' at -m now; took 2
  with 'echo three' at -m -t 203001010000; took 3
  with 'echo four' at -t 203001010000; took 4
  notices; looks
  flock "$spool.lock" cp -a "$spool" "$spool.out" "$spool.accounts" copy/
}
# What happens after the copy: job 2 runs and is mailed, 4 is removed, 5 runs, 6 waits, and the account is split.
gone_on() {
  call atrm 4 </dev/null; ended 0 '' ''
  with 'echo five' at -m now; took 5
  notices; jobs_run; notices; looks
  env -i ATSPOOL="$spool" "$libexec/rotate" --now || fail 'the account is not split'
  with 'echo six' at -t 203001010000; took 6
  looks
}
# Each job that was seen, over the account and all files of records.
seen() { cat "$spool/.ACC" "$spool".accounts/*.records 2>/dev/null | sed -n 's/^A \([0-9a-f]*\) .*/\1/p' | sort; }

case_restore_drill() {
  copied; gone_on
  [ "$(sort notices)" = $'job 1 exit 0\njob 2 exit 0\njob 5 exit 0' ] || fail "the notices are $(cat notices)"
  bytes_of "$spool" >before; bytes_of "$spool.out" >outputs; bytes_of "$spool.accounts" >accounts
  restores --yes copy/spool; [ "$status" = 0 ] && [ ! -s err ] || fail "status $status: $(cat out err)"
  printf '%s\n' 'job 2 ran since the copy, and runs again' 'job 4 was removed since the copy, and waits again' \
    'no notice of job 2 is sent: there may have been one since the copy' \
    "The last number is 6, the greatest that $spool knows of." "$spool is restored; what was there is $spool.bad" | diff - out || fail "it says $(cat out)"
  [ "$(head -c 1 "$spool.lock")" = a ] || fail "the lock says $(cat "$spool.lock")"
  [ "$(stat -c '%a %F' "$spool/.ATD")" = '600 regular empty file' ] || fail 'there is no .ATD'
  bytes_of "$spool.bad" | cmp -s - before && bytes_of "$spool.bad.out" | cmp -s - outputs && bytes_of "$spool.bad.accounts" | cmp -s - accounts || fail 'what was there is changed'
  [ -z "$(ls -d "$spool".restore* 2>/dev/null)" ] || fail "it leaves $(ls -d "$spool".restore*)"
  # no number twice
  with 'echo seven' at -m now; took 7
  user=root with '' atq; [ "$(cut -f 1 out | sort -n | paste -sd ' ')" = '2 3 4 7' ] || fail "it lists $(cat out)"
  # no notice twice: job 2 runs again, and 7 for the first time
  : >notices; notices; looks; jobs_run; notices
  [ "$(cat notices)" = 'job 7 exit 0' ] || fail "the notices are $(cat notices)"
  # the accounts have each job of the copy once, and what came after
  looks; [ "$(seen | paste -sd ' ')" = '00000001 00000002 00000003 00000004 00000007' ] || fail "the accounts have $(seen)"
  call ataccount "$spool" --show </dev/null
  [ "$(added "$spool".accounts/*.counts out)" = 'ann a 5 3 3 0 0 0 0' ] || fail "the totals are $(added "$spool".accounts/*.counts out)"
  [ "$(ATSPOOL=$spool "$door/atout" 1) $(ATSPOOL=$spool "$door/atout" 7)" = 'one seven' ] || fail 'the outputs are others'
}

# Notices are sent again where that is chosen; a trim, which leaves out the notes of what is done, has none sent again.
case_restore_notices() {
  copied; gone_on
  for beside in '' .out .accounts; do cp -a "spool$beside" "whole$beside"; done
  restores --yes --mail again copy/spool; [ "$status" = 0 ] || fail "status $status: $(cat out err)"
  grep -qx 'the notice of job 2 may have been sent since the copy, and is sent again' out || fail "it says $(cat out)"
  : >notices; jobs_run; notices
  [ "$(cat notices)" = 'job 2 exit 0' ] || fail "the notices are $(cat notices)"
  rm -rf spool spool.*; for beside in '' .out .accounts; do mv "whole$beside" "spool$beside"; done
  knock atpost "$spool" --trim; [ "$status" = 0 ] && ! grep -q '^. 00000002' "$spool/.MAIL" || fail "a trim: $(cat err "$spool/.MAIL")"
  restores --yes copy/spool; [ "$status" = 0 ] || fail "status $status: $(cat out err)"
  : >notices; jobs_run; notices; [ ! -s notices ] || fail "the notices are $(cat notices)"
}

# The disk is lost: nothing here says which numbers were given, and which notices were sent.
case_restore_onto_nothing() {
  copied
  for words in '' '--last 5000' '--last 2' '--last 4294967295'; do
    rm -rf "$spool" "$spool".*
    # shellcheck disable=SC2086
    restores --yes $words copy/spool; [ "$status" = 0 ] || fail "$words: status $status: $(cat out err)"
    case $words in
      '') want='100004, 100,000 more than the copy knows of: nothing here says which numbers were given since' ;;
      *2) want='4, the greatest number in the copy, which is above --last' ;;
      *) want="${words#* }, as --last has it" ;;
    esac
    grep -qx "The last number is $want." out || fail "$words: it says $(cat out)"
    [ "$((0x$(cat "$spool/.SEQ")))" = "${want%%,*}" ] || fail "$words: .SEQ is $(cat "$spool/.SEQ")"
    grep -qx 'jobs that wait, and of which nothing here says whether they ran since the copy: 3' out || fail "$words: it says $(cat out)"
    [ -z "$(ls -d "$spool.bad"* 2>/dev/null)" ] || fail "there is $(ls -d "$spool.bad"*)"
  done
  : >notices; notices; jobs_run; notices; [ ! -s notices ] || fail "the notices are $(cat notices)"
  # a spool that was made anew since knows less than the copy
  rm -rf "$spool" "$spool".*; opened; with true at -t 203001010000; took 1
  restores --yes copy/spool; grep -q '^The last number is 100004, ' out || fail "it says $(cat out)"
  # the greatest of all numbers is the last one, and a number that is known only by its output counts
  rm -rf "$spool.bad"*; printf 'ffffff00\n' >"$spool/.SEQ"; : >"$spool.out/afffffff001e187e0"
  restores --yes copy/spool; grep -q '^The last number is 4294967280, the greatest' out || fail "it says $(cat out)"
  rm -rf "$spool" "$spool".*; printf 'ffffff00\n' >copy/spool/.SEQ
  restores --yes copy/spool; grep -q '^The last number is 4294967295, 100,000 more' out || fail "it says $(cat out)"
}

case_restore_refused() {
  copied; gone_on
  for words in '' '--yes' '-y copy/spool' '--last copy/spool' '--last x copy/spool' '--last 4294967296 copy/spool' '--mail no copy/spool' 'a b c' '--mail'; do
    # shellcheck disable=SC2086
    restores $words; refused 1 'atrestore: usage: atrestore [--yes] [--last NUMBER] [--mail once|again] COPY [SPOOL]'
  done
  bytes_of "$spool" >before; ls -d spool* >names
  stays() { bytes_of "$spool" | cmp -s - before && ls -d spool* | cmp -s - names || fail "$1 leaves $(ls -d spool*)"; }
  restores --yes none; refused 2 "atrestore: none is no directory"; stays 'no copy'
  restores --yes spool; refused 1 "atrestore: $spool is no copy of $spool"; stays 'the spool itself'
  mkdir empty; restores --yes empty; refused 1 "atrestore: $PWD/empty is no spool: it has no .SEQ"; stays 'an empty directory'
  restores copy/spool; [ "$status" = 1 ] && grep -qx "atrestore: $spool is as it was" err || fail "no answer: $status: $(cat out err)"; stays 'no answer'
  cp -a copy/spool damaged; printf 0 >damaged/.SEQ
  restores --yes damaged; [ "$status" = 9 ] || fail "a damaged copy: $status: $(cat out err)"; stays 'a damaged copy'
  mkdir spool.bad.out; restores --yes copy/spool; refused 1 "atrestore: $spool.bad.out is there: move it away first"; rmdir spool.bad.out
  # beside an atd, by either of its locks, and beside a program that holds the spool's
  for lock in "$spool.out" "$spool/.ATD"; do
    [ -e "$lock" ] || : >"$lock"
    flock "$lock" sh -c ': >held; while [ ! -e go ]; do sleep 0.05; done' & awaits held
    restores --yes copy/spool; refused 5 "atrestore: an atd works on $spool: end it first"
    : >go; wait; rm go held
  done
  rm "$spool/.ATD"; stays 'an atd'
}

# Wherever it is killed as it swaps, the next call takes its steps back and makes them anew. (Each step takes a while here.)
case_restore_that_is_killed() {
  needs_strace; copied; gone_on
  bytes_of "$spool" >before; bytes_of "$spool.accounts" >accounts
  for beside in '' .out .accounts; do cp -a "spool$beside" "whole$beside"; done
  for step in '-e spool.bad.accounts' '-e spool.bad.out -a ! -e spool.restore.out' '-e spool.bad' '-e spool.bad -a ! -e spool.restore'; do
    rm -rf spool spool.*; for beside in '' .out .accounts; do cp -a "whole$beside" "spool$beside"; done
    env -i PATH=/usr/bin:/bin ATSPOOL="$spool" setsid "$strace" -f -o /dev/null -e trace=renameat2 -e inject=renameat2:delay_exit=100000 \
      "$door/atrestore" --yes copy/spool >said 2>&1 </dev/null &
    # shellcheck disable=SC2086
    for _ in $(seq 4000); do [ $step ] && break; sleep 0.005; done
    # shellcheck disable=SC2086
    [ $step ] || fail "$step: it is not reached: $(cat said)"
    kill -9 -- "-$!"; wait "$!" 2>/dev/null
    restores --yes copy/spool
    case $step in
      *'! -e spool.restore') refused 1 "atrestore: $spool.bad is there: move it away first" ;;
      *) [ "$status" = 0 ] || fail "$step: status $status: $(cat out err)" ;;
    esac
    [ "$(cat "$spool/.SEQ")" = 00000006 ] || fail "$step: .SEQ is $(cat "$spool/.SEQ")"
    bytes_of spool.bad | cmp -s - before && bytes_of spool.bad.accounts | cmp -s - accounts || fail "$step: what was there is changed"
    [ -z "$(ls -d spool.restore* 2>/dev/null)" ] && [ -d spool.bad.out ] || fail "$step: it leaves $(ls -d spool*)"
  done
  # what was submitted into a spool that was made anew meanwhile is not thrown away
  rm -rf spool.bad.*; mkdir spool.restore; restores --yes copy/spool
  refused 1 "atrestore: $spool was made anew as an atrestore swapped: the spool of before is $spool.bad"
}
