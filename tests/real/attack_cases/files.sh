# shellcheck shell=bash
# What root makes and removes where users write, and what keeps it waiting.

# Root made a user's spool in a directory that was the user's already: a link there got mode 600, and its user.
case_a_spool_that_is_made() {
  edit passwd '/^ann:/d; s|^eve:\(.*\):[^:]*:/bin/sh|eve:\1:/nonexistent:/bin/sh|'
  cp "$here/attack_cases/swap" home/eve/swap
  setpriv --reuid=eve --regid=eve --clear-groups perl home/eve/swap /var/spool/coefhird/eve "$PWD/victim" &
  swap=$!
  for round in $(seq 80); do
    echo keep >victim && chmod 644 victim
    rm -rf /var/spool/coefhird
    "$atusers" --spools 2>/dev/null
    [ "$(stat -c '%U %a' victim)" = 'root 644' ] || fail "after $round spools a file of root's is $(stat -c '%U %a' victim)"
  done
  kill $swap
  rm -rf /var/spool/coefhird && mkdir /var/spool/coefhird && mkdir /var/spool/coefhird/.new.123456
  "$atusers" --spools || fail 'no spool is made'
  [ "$(cd /var/spool/coefhird && stat -c '%n %U %a' eve eve/at.deny eve.lock eve.out | paste -sd ' ')" = 'eve eve 700 eve/at.deny eve 600 eve.lock eve 600 eve.out eve 700' ] \
    || fail "the spool is $(cd /var/spool/coefhird && stat -c '%n %U %a' eve eve/at.deny eve.lock eve.out | paste -sd ' ')"
  [ "$(ls -A /var/spool/coefhird | paste -sd ' ')" = 'eve eve.lock eve.out' ] || fail "root leaves $(ls -lA /var/spool/coefhird | paste -sd ' ')"
}

# A directory in wake on which something is mounted: root's rm emptied what was mounted.
case_a_mount_in_wake() {
  mkdir -p /run/coefhird && mkdir -m 1733 /run/coefhird/wake && as eve mkdir -p /run/coefhird/wake/d/e /run/coefhird/wake/f/g
  mkdir photos && chown eve photos && : >photos/one && mount --bind photos /run/coefhird/wake/d
  as eve sh -c ': >/run/coefhird/wake/f/g/h; : >/run/coefhird/wake/asks; ln -s /etc /run/coefhird/wake/link'
  does <<<'sleep 45'
  "$atusers" --asked
  [ -e photos/one ] || fail 'what is mounted there is emptied'
  [ "$(ls -A /run/coefhird/wake)" = d ] || fail "wake has $(ls -A /run/coefhird/wake)"
  [ -d /run/coefhird/up/eve ] || fail 'who asked is not served'
}

# A file system that does not answer held the look at boot for everybody. Here it is FUSE's, which not even KILL ends.
case_a_home_that_does_not_answer() {
  [ -c /dev/fuse ] || skip 'there is no FUSE'
  user zoe 64333
  job_of ann
  job_of zoe
  mv home/zoe/.local home/zoe/moved && as zoe mkdir home/zoe/.local
  perl "$here/attack_cases/silent" "$PWD/home/eve" "$PWD/home/zoe/.local" >mounted 2>&1 &
  within 3 grep -qx 'mounted 2' mounted || skip "nothing can be mounted: $(tail -n 1 mounted)"
  user low 64330; user high 64340
  job_of low; job_of high
  does <<<'sleep 45'
  timeout -s KILL 40 "$atusers" --boot 2>said &
  within 30 test -d /run/coefhird/up/high || fail "the users served are: $(ls /run/coefhird/up)"
  # each of them is said, once
  said_of=$(sed -n 's/^atusers: the files of \([a-z]*\) do not answer: .*/\1/p' said | sort | paste -sd ' ')
  [ "$said_of" = 'eve zoe' ] || fail "of those that do not answer it says: $(paste -sd ';' said)"
  [ "$(ls /run/coefhird/up | paste -sd ' ')" = 'ann high low' ] || fail "the users served are: $(ls /run/coefhird/up)"
}

# Root looked itself into the spool of a user without a home directory, and followed links there.
case_a_link_in_a_spool() {
  [ -c /dev/fuse ] || skip 'there is no FUSE'
  edit passwd 's|^eve:\(.*\):[^:]*:/bin/sh|eve:\1:/nonexistent:/bin/sh|'
  job_of ann
  mkdir -p /var/spool/coefhird/eve silent && chown eve /var/spool/coefhird/eve
  perl "$here/attack_cases/silent" "$PWD/silent" >mounted 2>&1 &
  within 3 grep -qx 'mounted 1' mounted || skip "nothing can be mounted: $(tail -n 1 mounted)"
  as eve ln -s "$PWD/silent/x" /var/spool/coefhird/eve/a0000000101e187e0
  does <<<'sleep 45'
  timeout -s KILL 30 "$atusers" --boot &
  within 20 test -d /run/coefhird/up/ann || fail 'root waits for what a link of the user leads to'
}
