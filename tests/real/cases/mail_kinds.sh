# The kinds of output that mail can't carry as they are, through the `send` of the package, and through a real program that
# takes mail where there is one.

# Five outputs: lines that mail carries, one line that is too long, bytes that are no UTF-8, a NUL, and a CR.
make_kinds() {
  mkdir kinds
  printf '.\n..\nüñ €\n%s\nno newline comes before this' "$(head -c 990 /dev/zero | tr '\0' y)" >kinds/1 && echo >>kinds/1
  { head -c 100000 /dev/zero | tr '\0' x; printf '\nand ü\n'; } >kinds/2
  printf 'caf\351\n\377\376\200\n' >kinds/3
  printf 'a\0b\n\n' >kinds/4
  printf 'half\rwhole\r\n' >kinds/5
}
kind_of() { case $1 in 1) echo 'text/plain; charset=UTF-8,8bit' ;; 3) echo text/plain,base64 ;; *) echo 'text/plain; charset=UTF-8,base64' ;; esac; }

case_mail_kinds() {
  delivering; make_kinds
  for kind in 1 2 3 4 5; do
    { echo "job $kind exit 0"; cat kinds/$kind; } >notice
    ./deliver ann <notice || fail "send fails on kind $kind"
    sed '1,/^$/d' messages/ann.$kind.* >body
    sed -n '1,/^$/{s/^Date: .*/Date:/;/^$/!p}' messages/ann.$kind.* >head
    type=$(kind_of $kind); encoding=${type##*,}; type=${type%,*}
    head_of_mail ann "job $kind exit 0" "$type" "$encoding" | diff - head || fail "the head of kind $kind"
    [ "$encoding" = 8bit ] || { base64 -d <body >decoded && mv decoded body; }
    cmp notice body || fail "kind $kind did not come whole"
    LC_ALL=C awk 'length > 990 { exit 1 }' messages/ann.$kind.* || fail "kind $kind has a line that is too long"
  done
  # (mail carries lines of 990 bytes here, and none that is longer, by however little)
  for bytes in 990:8bit 991:base64 998:base64 9900:base64; do
    { echo "job 9 exit 0"; head -c "${bytes%:*}" /dev/zero | tr '\0' x; echo; } >notice
    ./deliver ann <notice || fail "send fails on a line of $bytes"
    grep -qx "Content-Transfer-Encoding: ${bytes#*:}" messages/ann.9.* || fail "a line of $bytes has $(grep Encoding messages/ann.9.*)"
    rm messages/ann.9.*
  done
  # what is no text of a line begins no second one of the head
  printf 'job 6 exit 0' | ./deliver ann || fail 'send fails without a newline'
  sed '1,/^$/d' messages/ann.6.* | cmp - <(printf 'job 6 exit 0\n') || fail "a line without an end: $(cat messages/ann.6.*)"
}

# The sender is at the domain that the machine names for mail, and else on the machine.
steps_of_a_domain() {
  mkdir etc && mount -t tmpfs tmpfs etc && mkdir etc/up etc/work \
    && mount -t overlay overlay -o "lowerdir=/etc,upperdir=$PWD/etc/up,workdir=$PWD/etc/work" /etc 2>/dev/null || skip 'there is no overlay'
  delivering
  for domain in mail.example.org "$(uname -n)"; do
    case $domain in mail.*) echo $domain >/etc/mailname ;; *) rm -f /etc/mailname ;; esac
    rm -f messages/*; echo 'job 1 exit 0' | ./deliver ann || fail 'send fails'
    grep -qx "From: atpost <root@$domain>" messages/ann.1.* || fail "the sender is $(grep ^From: messages/ann.1.*)"
    grep -qx "Subject: atpost@$(uname -n): job 1 exit 0" messages/ann.1.* || fail "the subject is $(grep ^Subject: messages/ann.1.*)"
  done
}
case_mail_of_a_domain() { doored; apart steps_of_a_domain; }

# A program that fails: its status is that of send, and a line says which mail is lost.
case_mail_that_is_lost() {
  needs_atd; delivering
  printf '#!/bin/sh\ncat >/dev/null\nexit 75\n' >sendmail
  with 'echo hi' at now; took 1
  posts; turns; posts
  [ "$(cat "$spool.out"/mail.00000001)" = "send: $PWD/sendmail ended with 75: no mail to ann of job 1 exit 0" ] || fail "it says $(cat "$spool.out"/mail.*)"
  echo x | ./deliver ann 2>/dev/null; status=$?
  [ "$status" = 75 ] || fail "send ends with $status"
  # the line of the pages finds it, and none that was mailed
  printf '#!/bin/sh\ncat >/dev/null\n' >sendmail
  with 'echo hi' at now; took 2; posts; turns; posts
  [ -e "$spool.out/mail.00000002" ] || fail 'job 2 has no notice'
  [ "$(find "$spool.out" -name 'mail.*' -size +0)" = "$spool.out/mail.00000001" ] || fail "it finds $(find "$spool.out" -name 'mail.*' -size +0)"
}

# Jobs that print each kind, mailed by dma to a mailbox of a second user.
steps_of_dma() {
  delivering; make_kinds; needs_atd
  spool=$PWD/spool user=$second
  mkdir mail && chgrp mail mail && chmod 2775 mail && mount --bind mail /var/mail || fail 'nothing can be mounted'
  mkdir -m 2775 /var/spool/dma && chown root:mail /var/spool/dma && chmod 2775 /var/spool/dma
  # (whatever this machine has for others: nothing leaves it)
  : >dma.conf
  [ ! -e /etc/dma/dma.conf ] || mount --bind dma.conf /etc/dma/dma.conf || fail 'nothing can be mounted'
  printf '#!/bin/sh\nSENDMAIL=/usr/sbin/dma exec %q "$@"\n' "$libexec/send" >deliver
  for kind in 1 2 3 4 5; do with "cat '$PWD/kinds/$kind'" at now; took $kind; done
  posts; turns; posts
  for round in $(seq 100); do
    [ "$(grep -ac '^Subject: atpost@' /var/mail/$second 2>/dev/null)" != 5 ] || [ -n "$(ls /var/spool/dma)" ] || break
    sleep 0.1
  done
  python3 "$here/compare_mail.py" /var/mail/$second kinds >said 2>&1 || fail "after $round rounds: $(cat said "$spool.out"/mail.*)"
}
case_mail_by_dma() {
  [ -x /usr/sbin/dma ] || skip 'dma is not here: no real program takes the mail'
  command -v python3 >/dev/null || skip 'there is no python3 to read a mailbox'
  doored; apart steps_of_dma
}

# What the unit of the week runs: it names lost mail beside faults of the spool, and ends well where there is neither.
case_mail_weekly() {
  doored; opened; mkdir "$spool.out"
  weekly() { status=0; env -i ATSPOOL="$spool" "$libexec/weekly" >out 2>err || status=$?; }
  : >"$spool.out/mail.00000007"; weekly; ended 0 '' ''
  printf 'no such user\nmore\n' >"$spool.out/mail.0000000a"; weekly
  refused 1 "atcheck: the mail of job 10 may be lost, see $spool.out/mail.0000000a: no such user"
  printf 0 >"$spool/.SEQ"; weekly
  [ "$status" = 9 ] && grep -q '^atcheck: spool has faults$' err && grep -q 'job 10' err || fail "of both: $status, $(cat out err)"
}

# Where no ATSPOOL names one, the spool that it looks at is the user's own.
steps_of_a_weekly_check() {
  home=$PWD/home spool=$PWD/home/.local/state/coefhird/jobs
  login "$door/at" -t 203001010000 <<<true 2>err || fail "at: $(cat err)"
  second mkdir -p "$spool.out"; echo 'no such user' | second tee "$spool.out/mail.0000000a" >/dev/null
  status=0; login "$libexec/weekly" >out 2>err || status=$?
  refused 1 "atcheck: the mail of job 10 may be lost, see $spool.out/mail.0000000a: no such user"
}
case_mail_weekly_of_a_user() { doored; apart steps_of_a_weekly_check; }
