# shellcheck shell=bash
# What others wrote, where root reads it on a terminal, and what a name puts into a mail.
crontab_of_eve() { printf '* * * * * echo \033[31mred\007 \233A\n61 * * * * \033]0;title\007 \233B\nA\033[2Jb\007 \233C\n' >home/eve/crontab; }
is_harmless() { ! LC_ALL=C grep -q "$(printf '[\033\007\233]')" shown || fail "root's terminal gets $(LC_ALL=C grep -m 1 "$(printf '[\033\007\233]')" shown | od -c | head -n 3 | paste -sd ' ')"; }

# atcrontab --from-cron wrote the bytes of another's file on root's terminal, among them ESC, BEL and CSI.
case_a_crontab_on_a_terminal() {
  crontab_of_eve
  on_terminal "$place/pre/bin/atcrontab --from-cron $PWD/home/eve/crontab"
  grep -q 'red' shown || fail "it shows $(cat shown)"
  is_harmless
  # a file has the bytes as they are
  "$place/pre/bin/atcrontab" --from-cron home/eve/crontab 2>/dev/null | LC_ALL=C grep -q "$(printf '\233A')" || fail 'what is converted has other bytes'
}
# So did what says what is wrong in a line.
case_a_bad_line_on_a_terminal() {
  crontab_of_eve
  for line in 1 2 3; do
    on_terminal "$libexec/bad-line $line $PWD/home/eve/crontab"
    [ -s shown ] || fail 'it shows nothing'
    is_harmless
  done
}
# A newline in the name of the user was one in the head of the mail.
case_a_header_in_a_name() {
  does <<<true
  printf '#!/bin/sh\nprintf "%%s " "$@" >>words; cat >>mails\n' >mailer && chmod 755 mailer
  : >mails
  printf 'job 1 exit 0\ntext\n' | SENDMAIL=$PWD/mailer "$libexec/send" $'eve\nBcc: all@example.org' 2>said && fail "it is mailed: $(cat mails)"
  ! grep -q '^Bcc' mails || fail 'a name adds a header'
  printf 'job 1\rBcc: all@example.org\ntext\n' | SENDMAIL=$PWD/mailer "$libexec/send" eve || fail 'eve gets no mail'
  ! grep '^Subject' mails | grep -q "$(printf '\r')" || fail 'a line adds a header'
  grep -qx 'To: eve' mails || fail "the mail is $(cat mails)"
}
# from-debian-at reported whatever file has a name like that of a job which was being moved, with the bytes of that name.
case_a_name_on_a_terminal() {
  mkdir debian && : >debian/moving.a0000101c8b522 && : >"debian/moving.a$(printf '\033]0;FORGED\007xx')"
  on_terminal "$libexec/from-debian-at $PWD/debian"
  grep -q 'moving\.a0000101c8b522 was being moved' shown || fail "it shows $(cat shown)"
  is_harmless
}
