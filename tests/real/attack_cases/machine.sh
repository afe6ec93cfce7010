# shellcheck shell=bash
# What root does for users where no systemd runs: the lists that it publishes, whom it serves, and with which groups.

# Gives /etc an upper layer of this case's own.
own_etc() {
  mkdir -p etc && mount -t tmpfs tmpfs etc && mkdir etc/up etc/work \
    && mount -t overlay overlay -o "lowerdir=/etc,upperdir=$PWD/etc/up,workdir=$PWD/etc/work" /etc 2>/dev/null || skip 'there is no overlay'
  for file in passwd group shadow; do mount --bind $file /etc/$file || exit 1; done
}
publishes() { status=0; "$libexec/publish" >said 2>&1 || status=$?; }
is_published() { [ "$(stat -c '%a %U %F' "/run/coefhird/$1" 2>/dev/null)|$(paste -sd ' ' "/run/coefhird/$1")" = "644 root regular $([ -n "$2" ] || echo 'empty ')file|$2" ]; }

# Users could not read lists of mode 0640, and an excluded user's job was accepted.
case_lists_that_are_published() {
  own_etc
  publishes; [ "$status $(ls -A /run/coefhird)" = '0 ' ] || fail "without lists: $status: $(ls -A /run/coefhird): $(cat said)"
  (umask 077; printf '  eve \t\n\n# of the system\nann:x\nbob\n' >/etc/at.deny); : >/run/coefhird/at.deny.killed
  publishes; [ "$status" = 0 ] && is_published at.deny 'eve bob' || fail "it publishes $(ls -l /run/coefhird): $(cat /run/coefhird/at.deny said)"
  [ "$(ls -A /run/coefhird)" = at.deny ] || fail "there stays $(ls -A /run/coefhird)"
  # an empty list that names who may admits nobody, and is published as such
  : >/etc/at.allow; publishes; [ "$status" = 0 ] && is_published at.allow '' || fail "an empty list: $(ls -l /run/coefhird)"
  # who reads one has the old list or the new one, and never a part
  exec 4</run/coefhird/at.deny; echo zoe >/etc/at.deny; publishes
  [ "$(paste -sd ' ' <&4)" = 'eve bob' ] && is_published at.deny zoe || fail 'a list is written in its place'
  # one above 4 MB is not read, and the names of before stay
  { echo ann; head -c 4194304 /dev/zero | tr '\0' x; } >/etc/at.deny; publishes
  [ "$status" = 2 ] && is_published at.deny zoe && grep -qx 'publish: /etc/at.deny could not be published' said || fail "a long list: $status: $(cat said)"
  rm /etc/at.allow /etc/at.deny; publishes
  [ "$status $(ls -A /run/coefhird)" = '0 ' ] || fail "lists that are gone: $status: $(ls -A /run/coefhird)"
}

# Control characters in a user's listing reached root's terminal.
case_controls_in_a_listing() {
  job_of eve
  does <<<'printf "1\tred\033[31m\007 \233A\r\n"; printf "\033[2J\007\233B\n" >&2; exit 3'
  for words in atq '-u eve atq' '-u eve at -c 1' '-u eve atstat' '-u eve atcheck' '-u eve atrm 1' 'atrm 1' status; do
    on_terminal "$atusers $words"
    grep -q eve shown || grep -q red shown || fail "$words shows $(cat shown)"
    is_harmless
  done
}

# A user's job had the groups of root.
case_the_groups_of_a_job() {
  printf 'extra:x:64399:eve\n' >>group
  job_of eve
  does <<<'id -G >~/groups.$tool; sleep 45'
  setpriv --groups 0,5 "$atusers" --boot
  within 5 test -s home/eve/groups.atd || fail 'no atd is started'
  [ "$(cat home/eve/groups.atd)" = '64331 64399' ] || fail "the atd of eve has the groups $(cat home/eve/groups.atd)"
  does <<<'id -G'
  setpriv --groups 0,5 "$atusers" -u eve at -c 1 >listed 2>&1
  grep -qx '64331 64399' listed || fail "a call for eve has the groups $(cat listed)"
}

# Users of another table than /etc/passwd had their daemon until a boot.
case_users_known_from_before() {
  mkdir -p /run/userdb home/far && chown 64341:64341 home/far && chmod 755 home/far
  printf '{"userName":"far","uid":64341,"gid":64341,"homeDirectory":"%s","shell":"/bin/sh"}\n' "$PWD/home/far" >/run/userdb/far.user
  printf '{"groupName":"far","gid":64341}\n' >/run/userdb/far.group
  ln -s far.user /run/userdb/64341.user; ln -s far.group /run/userdb/64341.group
  id far >said 2>&1 && ! grep -q '^far:' /etc/passwd || skip "there is no second table of users: $(cat said)"
  does <<<'sleep 45'
  job_of far
  "$atusers" --boot
  [ ! -d /run/coefhird/up/far ] || fail 'who never asked is served'
  mkdir -p /run/coefhird && mkdir -m 1733 /run/coefhird/wake && as far touch /run/coefhird/wake/asks
  "$atusers" --asked
  within 3 test -s /run/coefhird/up/far/pid || fail 'who asks is not served'
  # a boot: nothing runs, and only what is known stays
  kill -KILL "$(cat /run/coefhird/up/far/pid)"; rm -rf /run/coefhird
  "$atusers" --boot
  [ -d /run/coefhird/up/far ] || fail 'who is known from before is not served at boot'
}

# The atcron of a user who may not submit any more, and all of an account that has expired, are ended by the next look.
case_who_may_not_submit_any_more() {
  own_etc
  does <<<'sleep 45'
  for name in eve ann; do as $name mkdir -p "home/$name/.config/coefhird"; as $name touch "home/$name/.config/coefhird/crontab"; done
  "$atusers" --boot
  for name in eve ann; do
    within 5 test -s /run/coefhird/up/$name/pid && within 5 test -s /run/coefhird/atcron/$name/pid || fail "$name has $(find /run/coefhird -name $name | paste -sd ' ')"
  done
  echo eve >/etc/at.deny; edit shadow 's/^\(ann:.*:\):$/\120000:/'
  "$atusers" --known
  for gone in atcron/eve atcron/ann up/ann; do within 5 test ! -d /run/coefhird/$gone || fail "$gone goes on"; done
  [ -d /run/coefhird/up/eve ] || fail 'jobs that were accepted have no atd'
  "$atusers" --known; "$atusers" --boot
  [ "$(ls /run/coefhird/atcron /run/coefhird/up | paste -sd ' ')" = '/run/coefhird/atcron:  /run/coefhird/up: eve' ] || fail "there is $(ls /run/coefhird/*)"
}

# A call of root's for a user whom the lists keep out finds lists that let that user in, also where they are published, and
# nobody else does.
case_lists_within_a_call() {
  own_etc
  job_of eve
  does <<<'for list in /etc/at.allow /etc/at.deny /run/coefhird/at.allow /run/coefhird/at.deny; do [ ! -e $list ] || echo "$list: $(paste -sd " " $list)"; done'
  printf 'eve\nann\n' >/etc/at.deny; "$libexec/publish"
  calls() { "$atusers" -u eve at -c 1 2>&1 | paste -sd ';'; }
  [ "$(calls)" = '/etc/at.deny: ;/run/coefhird/at.deny: ' ] || fail "it finds $(calls)"
  echo ann >/etc/at.allow; "$libexec/publish"
  [ "$(calls)" = '/etc/at.allow: eve;/etc/at.deny: ;/run/coefhird/at.allow: eve;/run/coefhird/at.deny: ' ] || fail "with both lists it finds $(calls)"
  [ "$(cat /etc/at.allow /run/coefhird/at.allow /etc/at.deny /run/coefhird/at.deny | paste -sd ' ')" = 'ann ann eve ann eve ann' ] || fail 'the lists are changed'
}

# Whoever held each inode of wake open kept all others from an atd, and nobody was told. The looks find the jobs of those.
case_a_wake_that_is_full() {
  mkdir -p /run/coefhird/wake && mount -t tmpfs -o mode=1733,nr_inodes=20 tmpfs /run/coefhird/wake || skip 'nothing can be mounted'
  does <<<'sleep 45'
  job_of ann
  as eve bash -c 'cd /run/coefhird/wake; for number in $(seq 30); do exec {file}>"$number" || break; done 2>/dev/null; : >~/full; sleep 40' &
  within 10 test -e home/eve/full || fail 'eve fills nothing'
  "$atusers" --asked >said 2>&1
  grep -q '^atusers: /run/coefhird/wake is full: ' said || fail "it says: $(cat said)"
  ! as ann touch /run/coefhird/wake/asks 2>/dev/null || fail 'wake is not full'
  [ ! -d /run/coefhird/up/ann ] || fail 'ann is served without a request'
  "$atusers" --boot
  within 5 test -s /run/coefhird/up/ann/pid || fail 'the look for all users does not find the job of ann'
  kill -KILL "$(cat /run/coefhird/up/ann/pid)"
  "$atusers" --known
  within 5 is_kept_anew ann || fail 'the look for users who are known does not find the job of ann'
}
is_kept_anew() { [ -d "/proc/$(cat "/run/coefhird/up/$1/pid" 2>/dev/null || echo none)" ]; }
