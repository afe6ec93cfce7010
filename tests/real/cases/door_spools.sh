# Which spool a tool of the package takes, and which one it does not touch.

# atcheck, ataccount, atcron and atpost take their first word, unless it is absent or begins with -; else the caller's spool.
case_door_first_words() {
  doored; opened other; opened
  extra=(ATSPOOL="$spool" TZ=UTC)
  printf '* * * * * true\n' >table
  printf 0 >other/.SEQ
  knock atcheck; ended 0 '' ''
  knock atcheck --salvage; ended 0 '' ''
  knock atcheck "$PWD/other"; ended 9 $'.SEQ damaged at 1\n' $'atcheck: spool has faults\n'
  rm other/.SEQ
  for words in 'ataccount:.ACC' 'atpost --send /bin/true --turns 1:.MAIL' "atcron -f $PWD/table --turns 1:.CRON"; do
    tool=${words%% *} file=${words##*:} words=${words%:*}
    case $words in *' '*) words=${words#* } ;; *) words= tool=${tool%:*} ;; esac
    # shellcheck disable=SC2086
    knock "$tool" $words; [ "$status" = 0 ] || fail "$tool: $(cat err)"
    [ ! -e "other/$file" ] || fail "$tool takes another spool"
    # shellcheck disable=SC2086
    knock "$tool" "$PWD/other" $words; [ "$status" = 0 ] || fail "$tool of a directory: $(cat err)"
    case $file in .MAIL) [ -e other.lock ] ;; *) [ -e "$spool/$file" ] && [ -e "other/$file" ] ;; esac || fail "$tool leaves $(ls -A "$spool" other)"
  done
}

# Root's spool, with the user's variable, and whatever else is another's: a tool stops before it opens anything.
steps_of_other_owners() {
  home=$PWD/home spool=$PWD/home/.local/state/coefhird/jobs
  printf true >commands; : >empty; chmod 644 empty
  login "$door/at" -t 203001010000 <commands 2>err || fail "their own: $(cat err)"
  listed() { find home -printf '%p %u %m %s %T@\n' | sort; }
  listed >before
  extra=(ATSPOOL="$spool" TZ=UTC)
  for words in 'at -t 203001010000' 'batch' 'atq' 'atrm 1' 'atstat' 'atd -s' 'ataccount' 'atpost --send /bin/true --turns 1' "atcron -f $PWD/empty --turns 1"; do
    # shellcheck disable=SC2086
    knock ${words%% *} ${words#"${words%% *}"} <commands; refused 2 "${words%% *}: spool fault"
  done
  listed | cmp -s - before || fail "root leaves $(listed | diff before -)"
  [ -z "$(find home -user root ! -name home)" ] || fail "root leaves $(find home -user root)"
  typed "$door/atq"; hinted 'atq: spool fault' "$spool belongs to another user: unset ATSPOOL, or run it as that user"
  # What is beside the spool: another's, or a link.
  unset extra
  root=$(login "$door/at" --spool); [ "$root" = "$spool" ] || fail "their spool is $root"
  mkdir -m 700 target target.out && : >target.lock && chown $number:$number target target.lock target.out
  echo keep >"$PWD/kept" && chown $number:$number kept
  for beside in out lock; do
    mv "$spool.$beside" "$PWD/aside.$beside" 2>/dev/null
    for what in link dangling root; do
      case $beside,$what in
        out,link) ln -s "$PWD/target.out" "$spool.out" ;;
        lock,link) ln -s "$PWD/kept" "$spool.lock" ;;
        *,dangling) ln -s "$PWD/none" "$spool.$beside" ;;
        out,root) mkdir -m 777 "$spool.out" ;;
        lock,root) : >"$spool.lock" && chmod 666 "$spool.lock" ;;
      esac
      chown -h $number:$number "$spool.$beside"; [ $what != root ] || chown 0:0 "$spool.$beside"
      ls "$spool" >before
      for words in 'at -t 203001010000' 'atq' 'atrm 1' 'atstat' 'atd -s'; do
        # shellcheck disable=SC2086
        status=0; login "$door/${words%% *}" ${words#"${words%% *}"} <commands >out 2>err || status=$?
        refused 2 "${words%% *}: spool fault"
      done
      ls "$spool" | cmp -s - before || fail "the spool is changed beside a $what of SPOOL.$beside"
      [ "$(cat kept)" = keep ] && [ -z "$(ls target.out)" ] && [ ! -e none ] || fail "what a $what of SPOOL.$beside leads to is changed"
      rm -rf "$spool.$beside"
    done
    [ ! -e "aside.$beside" ] || mv "aside.$beside" "$spool.$beside"
  done
  login "$door/atrm" 1 2>err || fail "afterwards: $(cat err)"
  # Their directory alone, and with root's files beside it: root's daemon runs none of their jobs.
  for beside in nothing roots; do
    spool=$home/theirs_$beside; second mkdir -m 700 "$spool"; second touch "$spool/at.deny"
    login ATSPOOL="$spool" "$door/at" now <<<"touch $PWD/home/ran" 2>err || fail "$(cat err)"
    rm -rf "$spool".*; [ $beside = nothing ] || { mkdir -m 700 "$spool.out"; : >"$spool.lock"; }
    ls -A "$spool" >before; extra=(ATSPOOL="$spool" TZ=UTC)
    for words in 'atd -s' 'atq' 'at now'; do
      # shellcheck disable=SC2086
      hand true $words; [ "$status" = 2 ] || fail "$words, with $beside: $status"; refused 2 "${words%% *}: spool fault"
    done
    ls -A "$spool" | cmp -s - before && [ ! -e home/ran ] || fail "root's daemon works on the spool of another user, with $beside beside it"
  done
  # What is saved goes into no directory beside which there is a link, and into nobody else's.
  mkdir -m 700 roots saved aside; : >roots/at.deny; echo keep >kept; extra=(ATSPOOL="$PWD/roots" TZ=UTC)
  second mkdir -m 700 home/saved
  for what in "saved.lock $PWD/kept" "saved.out $PWD/aside" 'home/saved'; do
    case $what in home/*) new=$PWD/home/saved ;; *) new=$PWD/saved; ln -s "${what#* }" "${what% *}" ;; esac
    knock atcheck "$PWD/roots" "$new" --salvage; [ "$status" = 2 ] || fail "beside $what: $status"; refused 2 'atcheck: spool fault'
    rm -f saved.lock saved.out
    [ -z "$(find saved aside home/saved* -mindepth 1)" ] && [ "$(ls -d home/saved*)" = home/saved ] && [ "$(cat kept)" = keep ] || fail "something is saved beside $what"
  done
}
case_door_other_owners() { needs_terminal; doored; apart steps_of_other_owners; }

# A user whom the table of the machine does not have: the one that getent knows, and one whom nothing knows.
steps_of_another_table() {
  second=at_elsewhere number=64322 home=$PWD/home
  chown -R $number:$number home
  cat >getent <<END
#!/bin/sh
echo "\$*" >>$PWD/asked
[ "\$1 \$2" = "passwd $number" ] && echo "$second:*:$number:$number::$home:/bin/sh"
END
  chmod 755 getent; : >asked; chmod 666 asked
  mount --bind getent "$(realpath /usr/bin/getent)" || fail 'nothing can be mounted'
  spool=$home/.local/state/coefhird/jobs
  cd home || exit 1
  second env -i "$door/at" -t 203001010000 <<<true 2>../err || fail "of getent: $(cat ../err)"
  [ "$(user_of 1)" = "$second" ] && [ "$(stat -c '%u %a' "$spool")" = "$number 700" ] || fail "the user is $(user_of 1)"
  [ "$(sort -u ../asked)" = "passwd $number" ] || fail "it asks $(cat ../asked)"
  second env -i "$door/atq" >../out 2>../err || fail "atq: $(cat ../err)"
  grep -q " a $second\$" ../out || fail "their jobs are $(cat ../out)"
  # (whom the table has, it is not asked for)
  : >../asked; "$door/at" --spool >/dev/null; [ ! -s ../asked ] || fail 'getent is asked for root'
  # nothing knows them: LOGNAME counts, and HOME where it is theirs
  number=64323; cd ..; mkdir -p elsewhere; chown $number elsewhere
  second env -i LOGNAME=stray HOME="$PWD/elsewhere" "$door/at" -t 203001010000 <<<true 2>err || fail "of nobody: $(cat err)"
  spool=$PWD/elsewhere/.local/state/coefhird/jobs
  [ "$(user_of 1)" = stray ] || fail "the user is $(user_of 1)"
  # (where they may write into that of another, nothing else refuses it)
  chmod 777 home
  status=0; second env -i LOGNAME=stray HOME="$PWD/home" "$door/at" -t 203001010000 <<<true >out 2>err || status=$?
  [ "$status" != 0 ] && [ "$(find home -user $number)" = '' ] || fail "a home of another is taken: $(cat err)"
}
case_door_a_user_of_another_table() { doored; apart steps_of_another_table; }

# A user without a home directory of their own, as www-data, has a spool where the package made one, and what is beside it.
steps_of_a_system_user() {
  local made=/var/spool/coefhird/$second
  mkdir /var/spool/coefhird && mkdir -m 700 "$made" "$made.out" && touch "$made.lock" "$made/at.deny" && chmod 600 "$made.lock" \
    && chown -R $number:$number "$made" "$made.out" "$made.lock"
  chown 0:0 home
  [ "$(second env -i "$door/at" --spool)" = "$made" ] || fail "it is $(second env -i "$door/at" --spool)"
  second env -i "$door/at" -t 203001010000 <<<true 2>err || fail "$(cat err)"
  [ -e "$made/a0000000101e187e0" ] || fail 'the job is elsewhere'
}
case_door_a_system_user() { doored; apart steps_of_a_system_user; }

# The lists of the machine: who may not use at is refused before the spool is looked at. root always may.
steps_of_machine_lists() {
  home=$PWD/home
  mkdir etc && mount -t tmpfs tmpfs etc && mkdir etc/up etc/work \
    && mount -t overlay overlay -o "lowerdir=/etc,upperdir=$PWD/etc/up,workdir=$PWD/etc/work" /etc 2>/dev/null || skip 'there is no overlay'
  cp passwd /etc/passwd; rm -f /etc/at.allow /etc/at.deny
  extra=(HOME="$home" LOGNAME="$second" TZ=UTC)
  while IFS='|' read -r allow deny status_wanted; do
    rm -f /etc/at.allow /etc/at.deny
    [ "$allow" = - ] || printf '%s\n' $allow >/etc/at.allow
    [ "$deny" = - ] || printf '%s\n' $deny >/etc/at.deny
    # (nothing is made for whom they refuse, and the hint names the list)
    case $status_wanted in
      1)
        rm -rf home/.local
        typed "$door/atq" second
        case $allow in -) hinted 'atq: not allowed' "$second stands in /etc/at.deny" ;; *) hinted 'atq: not allowed' "$second is to stand in /etc/at.allow" ;; esac
        ;;
    esac
    for words in 'at -t 203001010000' batch atq atstat 'atrm 99'; do
      tool=${words%% *}
      # shellcheck disable=SC2086
      status=0; login "$door/$tool" ${words#"$tool"} <<<true >out 2>err || status=$?
      case $status_wanted,$tool in
        1,*) refused 1 "$tool: not allowed" ;;
        0,atrm) refused 1 'atrm: no such job 99' ;;
        *) [ "$status" = 0 ] || fail "allow $allow, deny $deny: $tool: $(cat err)" ;;
      esac
      # shellcheck disable=SC2086
      status=0; env -i "$door/$tool" ${words#"$tool"} <<<true >out 2>err || status=$?
      [ "$(cat err)" != "$tool: not allowed" ] || fail "root is refused by $tool"
    done
    [ "$status_wanted" = 0 ] || [ ! -e home/.local ] || fail 'a spool is made for a user whom the lists refuse'
  done <<END
-|-|0
-|$second|1
-|other|0
-||0
$second|-|0
other|-|1
|-|1
$second|$second|0
END
}
case_door_machine_lists() { needs_terminal; doored; apart steps_of_machine_lists; }

# A submission wakes the daemon of its user where the machine serves them: an empty file in /run/coefhird/wake.
steps_of_a_wake() {
  home=$PWD/home
  mount -t tmpfs -o mode=755 tmpfs /run && mkdir /run/coefhird && mkdir -m 1733 /run/coefhird/wake || fail 'nothing can be mounted'
  woken() { find /run/coefhird/wake -type f -empty -user $second | wc -l; }
  login "$door/at" -t 203001010000 <<<true 2>err || fail "$(cat err)"
  [ "$(woken)" = 1 ] && [ "$(find /run/coefhird/wake -type f | wc -l)" = 1 ] || fail "there is $(ls -l /run/coefhird/wake)"
  rm /run/coefhird/wake/*
  login "$door/batch" <<<true 2>err || fail "$(cat err)"
  [ "$(woken)" = 1 ] || fail 'a batch job wakes no daemon'
  rm /run/coefhird/wake/*
  for words in 'atq' 'atrm 1'; do
    # shellcheck disable=SC2086
    login "$door/${words%% *}" ${words#"${words%% *}"} <<<true >out 2>&1
  done
  [ -z "$(ls /run/coefhird/wake)" ] || fail 'a call that submits no job wakes a daemon'
  mkdir -p "/run/coefhird/up/$second"
  login "$door/batch" <<<true 2>err || fail "$(cat err)"
  [ -z "$(ls /run/coefhird/wake)" ] || fail 'a daemon that runs is woken'
  rm -r /run/coefhird/up
  "$door/at" -t 203001010000 <<<true 2>err || fail "$(cat err)"
  [ -z "$(ls /run/coefhird/wake)" ] || fail "root's daemon is woken"
}
case_door_wake() { doored; apart steps_of_a_wake; }
