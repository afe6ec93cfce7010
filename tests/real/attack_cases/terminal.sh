# shellcheck shell=bash
# What a user gets of root's terminal, of root's descriptors, and of what root lists.

# atusers ran a shell as each user, and its standard output was root's terminal: eve took it and wrote past the filter.
case_the_terminal_in_a_look() {
  job_of eve
  does <<<'sleep 0.2; echo "1	a job"'
  thief
  for _ in 1 2 3 4 5 6; do
    on_terminal "$atusers atq"
    ! grep -q '^tty' home/eve/taken || fail "eve has $(grep '^tty' home/eve/taken), and root sees $(grep -m 1 FORGED shown)"
  done
  grep -q 'a job' shown || fail "it lists $(cat shown)"
  [ -s home/eve/taken ] || fail 'eve took nothing at all: her program does not work'
}

# from-debian-at called at as each user in root's session: whatever runs as eve there types into root's shell.
case_the_terminal_in_a_move() {
  mkdir debian && printf '#!/bin/sh\n# atrun uid=64331 gid=64331\n# mail eve 0\ntrue\n' >debian/a0000101c8b522
  chown eve:eve debian/a0000101c8b522 && chmod 700 debian/a0000101c8b522
  : >typed && chmod 666 typed
  does <<<'cat >/dev/null; exec 2>>'"$PWD/typed"'; echo called >&2; perl -e '\''open(T, "+<", "/dev/tty") or exit; $key = "x"; ioctl(T, 0x5412, $key) and print STDERR "typed\n"'\'
  on_terminal "$libexec/from-debian-at --make $PWD/debian"
  grep -q called typed || fail "at is not called: $(cat shown)"
  ! grep -q typed typed || fail 'eve types into the terminal of root'
}

# What root's shell has open, such as a file of secrets, was open in the process of the user.
case_descriptors_of_roots_shell() {
  job_of eve
  (umask 077; echo secret >secret)
  does <<<"cat /proc/self/fd/5 /proc/self/fd/20 2>/dev/null; cat <&5; perl -e 'open(S, \"<&=20\") and print <S>'"
  bash -c 'exec 5<secret 20<secret; "$1" atq' _ "$atusers" >listed 2>&1
  ! grep -q secret listed || fail "eve reads what root's shell has open: $(grep secret listed)"
}

# The output was a file of root's: eve took its descriptor, and could fill the disk with a file that root had removed.
case_a_file_of_roots() {
  job_of eve
  does <<<'sleep 1; echo listed'
  thief
  "$atusers" atq >listed 2>&1
  ! grep -q '^file /tmp/' home/eve/taken || fail "eve has $(grep -m 1 '^file /tmp/' home/eve/taken)"
  grep -q listed listed || fail "it lists $(cat listed)"
}

# Nothing bounded the memory, the output and the files of such a process.
case_what_a_listing_takes() {
  job_of eve
  does <<<'[ "$(ulimit -v)" != unlimited ] && [ "$(ulimit -f)" != unlimited ] && [ "$(ulimit -c)" = 0 ] || echo unbounded; yes "$(ulimit -v)" | head -c 40000000'
  "$atusers" atq >listed 2>/dev/null
  ! grep -q unbounded listed || fail 'nothing bounds the memory and the files of the process'
  [ "$(stat -c %s listed)" -lt 30000000 ] || fail "root reads $(stat -c %s listed) bytes"
  [ -s listed ] || fail 'nothing is listed'
}

# Everybody could read the listing of all users while root made it.
case_the_listing_in_tmp() {
  job_of ann
  does <<<'echo "1	secret of ann"; sleep 1'
  as eve sh -c 'while :; do cat /tmp/*/* /tmp/* 2>/dev/null; done' >read_by_eve &
  "$atusers" atq >listed 2>&1
  grep -q 'secret of ann' listed || fail "it lists $(cat listed)"
  ! grep -q secret read_by_eve || fail "eve reads the listing of ann's jobs"
}
