# shellcheck shell=bash
# Who is served as whom, and who is not served any more.

# A user whose name is the number of another: root's call for ann ran as that user.
case_a_name_of_digits() {
  user 64332 64339
  job_of ann
  does <<<'echo "1	by $(id -u)"'
  "$atusers" -u ann atq >listed 2>&1
  grep -q 'by 64332' listed || fail "the call for ann runs so: $(cat listed)"
  mkdir -p /run/coefhird && mkdir -m 1733 /run/coefhird/wake
  setpriv --reuid=64339 --regid=64339 --clear-groups touch /run/coefhird/wake/asks
  "$atusers" --asked >said 2>&1
  [ -z "$(ls /run/coefhird/up 2>/dev/null)" ] || fail "there is an atd of $(ls /run/coefhird/up)"
  grep -q '64332 is refused' said || fail "it says: $(cat said)"
  if "$atusers" -u 64332 atq >listed 2>&1; then fail "a number is taken: $(cat listed)"; fi
}

# A group whose name is the number of another.
case_a_group_of_digits() {
  job_of ann
  printf '64332:x:64350:\n' >>group
  does <<<'echo "1	by $(id -g)"'
  "$atusers" -u ann atq >listed 2>&1
  ! grep -q 'by 64350' listed || fail "the call for ann has the group $(cat listed)"
}

# An expired account's jobs ran at boot, and a running daemon was left.
case_an_expired_account() {
  user old 64333; user gone 64334; user later 64335; user now 64336
  edit shadow 's/^\(old:.*:\):$/\120000:/; s/^\(gone:\*:\)20000:0:99999:7:::/\118000:0:90:7:30::/; s/^\(later:.*:\):$/\199999:/; s/^\(now:.*:\):$/\10:/'
  for name in ann old gone later now; do job_of $name; done
  does <<<'sleep 45'
  "$atusers" --boot >said 2>&1
  [ "$(ls /run/coefhird/up | paste -sd ' ')" = 'ann later' ] || fail "at boot there are atds of: $(ls /run/coefhird/up | paste -sd ' ')"
  mkdir -m 1733 /run/coefhird/wake; setpriv --reuid=old --clear-groups touch /run/coefhird/wake/asks
  "$atusers" --asked >said 2>&1
  [ ! -d /run/coefhird/up/old ] || fail 'there is an atd of an account that has expired'
  grep -q 'the account of old has expired' said || fail "it says: $(cat said)"
  # one that expires while it is served
  within 3 test -s /run/coefhird/up/ann/pid || fail 'nothing keeps the atd of ann'
  edit shadow 's/^\(ann:.*:\):$/\120000:/'
  as ann touch /run/coefhird/wake/asks
  "$atusers" --asked >said 2>&1
  within 3 test ! -d /run/coefhird/up/ann || fail 'the atd of an account that has expired goes on'
}
