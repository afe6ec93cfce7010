# Mail: each job's end told, at most once, through the `send` of the package and a stand-in for sendmail.

# What takes the place of sendmail, and of a name for it in the environment of `send`: each message is a file of ./messages.
delivering() {
  doored; opened
  mkdir messages
  cat >sendmail <<WORDS
#!/bin/sh
[ "\$1 \$2 \$#" = '-i -- 3' ] || exit 64
cat >"$PWD/messages/.\$\$" && mv "$PWD/messages/.\$\$" "$PWD/messages/\$3.\$(sed -n 's/^Subject: [^ ]*: job \([0-9]*\) .*/\1/p' "$PWD/messages/.\$\$").\$\$"
WORDS
  printf '#!/bin/sh\nSENDMAIL=%q exec %q "$@"\n' "$PWD/sendmail" "$libexec/send" >deliver
  chmod 755 sendmail deliver
}

# A session, which says nothing and ends well, and the notices that it handed over.
posts() { call atpost "$spool" --send "$PWD/deliver" --turns 1 </dev/null; ended 0 '' ''; told; }

# Waits until no notice is being read any more, 30 seconds at most.
told() {
  local round
  for round in $(seq 300); do
    pgrep -f "$spool/mail[.]" >/dev/null || return 0
    sleep 0.1
  done
  fail 'a notice does not end'
}

# The lines before the body of a message for this user, with this line, type and encoding, and with no date.
head_of_mail() {
  local domain
  domain=$(head -n 1 /etc/mailname 2>/dev/null)
  printf '%s\n' "From: atpost <$(id -un)@${domain:-$(uname -n)}>" "To: $1" Date: "Subject: atpost@$(uname -n): $2" \
    'Auto-Submitted: auto-generated' 'MIME-Version: 1.0' "Content-Type: $3" "Content-Transfer-Encoding: $4"
}

# So many messages came.
came() { [ "$(ls messages | wc -l)" = "$1" ] || fail "$(ls messages | wc -l) messages came, not $1: $(ls messages)"; }

turns() { call atd -s </dev/null; [ "$status" = 0 ] || fail "atd: $(cat err)"; }

case_mail_of_a_job() {
  needs_atd; delivering
  with 'true' at -m now; took 1
  with 'true' at now; took 2
  with 'echo hi' at now; took 3
  with 'true' at -m -t 203001010000; took 4
  posts; came 0
  [ "$(grep -c '^N ' "$spool/.MAIL")" = 4 ] || fail "the notes are $(cat "$spool/.MAIL")"
  [ "$(stat -c %a "$spool/.MAIL")" = 600 ] || fail "the rights of the notes are $(stat -c %a "$spool/.MAIL")"
  turns; call atrm 4 </dev/null; ended 0 '' ''
  posts; came 2
  [ "$(tail -n 4 "$spool/.MAIL")" = $'S 00000001\nS 00000002\nS 00000003\nD 00000004' ] || fail "the notes are $(cat "$spool/.MAIL")"
  head_of_mail ann 'job 1 exit 0' 'text/plain; charset=UTF-8' 8bit >want
  printf '%s\n' '' 'job 1 exit 0' >>want
  date -d "$(sed -n 's/^Date: //p' messages/ann.1.*)" >/dev/null || fail "the date is $(cat messages/ann.1.*)"
  sed -i 's/^Date: .*/Date:/' messages/*
  cmp want messages/ann.1.* || fail "the message of a quiet job: $(cat messages/ann.1.*)"
  { sed 's/job 1/job 3/' want; echo hi; } | cmp - messages/ann.3.* || fail "the message of a job: $(cat messages/ann.3.*)"
  posts; came 2
  # the notices are removed once they have ended
  [ -z "$(find "$spool" -name 'mail.*')" ] || fail "notices stay: $(ls -A "$spool")"
}

case_mail_of_each_end() {
  needs_atd; delivering
  user=ben with 'exit 3' at -m now; took 1
  with 'echo so far; kill -9 $$' at now; took 2
  with "echo \$\$ >'$PWD/sleeper'; exec sleep 60" at -m now; took 3
  posts
  # (the one that sleeps is given up by the next atd)
  (becomes "$bin/atd" --turns 1 >/dev/null 2>&1) & wait $!
  awaits_text sleeper; awaits_text "$spool.out/$(basename "$(file_of 2)")"; sleep 0.3; turns
  kill "$(cat sleeper)" 2>/dev/null
  posts
  grep -qx 'job 1 exit 3\|job 1 interrupted' messages/ben.1.* || fail "of an end: $(cat messages/ben.1.*)"
  grep -qx 'so far' messages/ann.2.* || fail "of a signal: $(cat messages/ann.2.*)"
  grep -qx 'job 3 interrupted' messages/ann.3.* || fail "of one that was given up: $(cat messages/ann.3.*)"
  came 3
}

# A line of one point ends a message for a sendmail that is called without -i; quotes, no newline at the end, and more than a
# pipe holds are no matter.
case_mail_whole() {
  needs_atd; delivering
  { printf '.\n..\nFrom ann\n%s\n' "it's \"so\" \$1 \\"; head -c 300000 /dev/zero | tr '\0' x | fold -w 990; printf '\n.\nend'; } >text
  with "cat '$PWD/text'" at now; took 1
  posts; turns; posts; came 1
  sed '1,/^job 1 exit 0$/d' messages/ann.1.* | cmp - text || fail 'the output did not come whole'
}

case_mail_refused() {
  delivering
  for words in '' 'x' '--send' '--send=' '--send relative' '--send /bin/true x' '--send /bin/true --turns 0' '--send /a --send /b'; do
    # shellcheck disable=SC2086
    call atpost "$spool" $words </dev/null; refused 1 'atpost: usage'
  done
  call atpost </dev/null; refused 1 'atpost: usage'
  call atpost --send /bin/true </dev/null; refused 1 'atpost: usage'
  [ ! -e "$spool.lock" ] || fail 'refused words enter the spool'
  extra=(ATSPOOL="$spool")
  for path in /nowhere/at_all "$PWD/commands" "$PWD"; do
    : >commands
    knock atpost --send "$path" --turns 1 </dev/null; refused 1 "atpost: $path can not be executed"
    knock atpost --turns 1 "--send=$path" </dev/null; refused 1 "atpost: $path can not be executed"
  done
  [ ! -e "$spool.lock" ] || fail 'a path that can not be executed enters the spool'
  extra=()
  with 'true' at -t 203001010000; took 1
  printf 'S 00000001\n' >"$spool/.MAIL"
  call atpost "$spool" --send /bin/true --turns 2 </dev/null; refused 7 'atpost: .MAIL damaged at 0'
  rm "$spool/.MAIL"; posts; cat "$spool/.MAIL" "$spool/.MAIL" >twice; cp twice "$spool/.MAIL"
  call atpost "$spool" --send /bin/true --turns 2 </dev/null; refused 7 "atpost: .MAIL damaged at $(($(stat -c %s twice) / 2))"
  cmp -s twice "$spool/.MAIL" || fail 'damaged notes are changed'
  mv "$spool/.MAIL" bad; posts
  [ "$(grep -c '^N 00000001 ' "$spool/.MAIL")" = 1 ] || fail 'a job that waits is not noted anew'
  printf 0 >"$spool/.SEQ"
  call atpost "$spool" --send /bin/true --turns 2 </dev/null; refused 7 'atpost: .SEQ damaged at 1'
  rm -r "$spool"
  call atpost "$spool" --send /bin/true --turns 1 </dev/null; ended 0 '' $'atpost: spool fault\n'
  [ ! -e "$spool" ] || fail 'a folder that is not there is made'
}

# Kills of sessions that have notices to send: no job has two messages, and each that came is whole.
case_mail_of_sessions_that_are_killed() {
  needs_disk; needs_strace; needs_atd; delivering; measured
  for batch in $(seq 0 7); do
    # (a session takes longer on a busy machine)
    span=$((10 << batch))
    for _ in $(seq 4); do with 'echo hi' at now; done
    posts; turns
    for round in $(seq 6); do killed_somehow "$round" /dev/null said atpost "$spool" --send "$PWD/deliver" --turns 1; done
    posts; told
    [ ! -e "$spool/.MTMP" ] || fail 'a temporary file stays'
    [ "$(grep -c '^S ' "$spool/.MAIL")" = $(((batch + 1) * 4)) ] || fail "the notes are $(cat "$spool/.MAIL")"
  done
  [ $cut -ge 5 ] || fail "$cut sessions were cut off in the midst"
  twice=$(ls messages | cut -d . -f 2 | sort | uniq -d)
  [ -z "$twice" ] || fail "jobs with two messages: $twice"
  for message in messages/*; do [ "$(tail -n 1 "$message")" = hi ] || fail "$message is not whole"; done
  [ "$(ls messages | wc -l)" -gt 0 ] || fail 'no message came'
}

# Kills of trims while notices wait and a job lives: the notes are the old ones, or those that a trim keeps of them. Each notice
# is sent by the next session, once.
case_mail_of_trims_that_are_killed() {
  needs_strace; needs_atd; delivering
  with 'true' at -t 203001010000; took 1
  measured
  local round old=0 new=0
  for round in $(seq 20); do
    for _ in 1 2 3; do with 'echo hi' at now; done
    posts; turns
    cp "$spool/.MAIL" before
    awk 'NR == FNR { if ($1 != "N") done[$2]; next } !($2 in done)' before before >after
    cmp -s before after && [ $round -gt 1 ] && fail "round $round: there is nothing to trim"
    bin=$door killed_somehow "$round" /dev/null said atpost "$spool" --trim
    if cmp -s before "$spool/.MAIL"; then old=$((old + 1)); elif cmp -s after "$spool/.MAIL"; then new=$((new + 1)); else
      fail "round $round: the notes are $(cat "$spool/.MAIL"), before $(cat before)"
    fi
    posts; came $((round * 3))
    [ ! -e "$spool/.MTMP" ] || fail 'a temporary file stays'
  done
  [ $cut -ge 5 ] && [ $old -ge 1 ] && [ $new -ge 1 ] || fail "of $round trims $cut were cut off in the midst, $old left the notes and $new trimmed them"
  twice=$(ls messages | cut -d . -f 2 | sort | uniq -d)
  [ -z "$twice" ] || fail "jobs with two messages: $twice"
}

# What sends the mail, by the file of the machine, and as a reader of mail without a subject line would call it.
steps_of_send() {
  mkdir etc && printf 'ATD_OPTIONS=""\nSENDMAIL=%q\n' "$PWD/sendmail" >etc/coefhird
  [ -e /etc/default/coefhird ] || { mount -t tmpfs tmpfs /etc/default && : >/etc/default/coefhird; } || fail 'nothing can be mounted'
  mount --bind etc/coefhird /etc/default/coefhird || fail 'nothing can be mounted'
  printf 'job 9 exit 0\n.\n' | env -i "$libexec/send" ann@example.org || fail 'send fails'
  [ "$(tail -n 2 messages/ann@example.org.9.*)" = $'job 9 exit 0\n.' ] || fail "it sends $(cat messages/*)"
  mount --bind /dev/null /etc/default/coefhird
  if [ ! -e /usr/sbin/sendmail ]; then
    printf 'x\n' | env -i "$libexec/send" ann 2>said && fail 'without sendmail it ends well'
    [ "$(cat said)" = 'send: /usr/sbin/sendmail can not be executed: nothing is mailed to ann' ] || fail "it says $(cat said)"
  fi
}
case_mail_send() {
  delivering
  for words in '' 'a b'; do
    # shellcheck disable=SC2086
    "$libexec/send" $words </dev/null 2>said && fail "send takes '$words'"
    [ "$(cat said)" = 'send: usage: send USER' ] || fail "it says $(cat said)"
  done
  apart steps_of_send
}
