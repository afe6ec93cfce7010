# shellcheck shell=bash
# What the attacks are written in.
fail() { printf '%s\n' "$*"; exit 1; }
skip() { printf '%s\n' "$*"; exit 77; }

# A machine of this case's own, where no systemd runs: three users, and directories in the place of the system's.
settle() { # case
  mkdir "$place/case_$1" && mount --make-rprivate / && mount --bind "$place/case_$1" "$place/here" && cd "$place/here" || exit 1
  chmod 755 .
  for directory in /run /var/spool /var/lib; do mount -t tmpfs -o mode=755 tmpfs "$directory" || exit 1; done
  mount -t tmpfs -o mode=1777 tmpfs /tmp || exit 1
  printf '%s\n' 'root:x:0:0::/root:/bin/sh' 'nobody:x:65534:65534::/nonexistent:/bin/sh' >passwd
  printf '%s\n' 'root:x:0:' 'tty:x:5:' 'nogroup:x:65534:' >group
  printf '%s\n' 'root:*:20000:0:99999:7:::' >shadow
  chmod 600 shadow
  for file in passwd group shadow; do mount --bind $file /etc/$file || exit 1; done
  for list in /etc/at.allow /etc/at.deny; do [ ! -e $list ] || skip "there is an $list"; done
  mkdir -p home && chmod 755 home
  user eve 64331
  user ann 64332
}
user() { # name, number
  mkdir -p "home/$1" && chmod 755 "home/$1" && chown "$2:$2" "home/$1"
  printf '%s:x:%s:%s::%s:/bin/sh\n' "$1" "$2" "$2" "$PWD/home/$1" >>passwd
  printf '%s:x:%s:\n' "$1" "$2" >>group
  printf '%s:*:20000:0:99999:7:::\n' "$1" >>shadow
}
# (a file that is mounted over another has to stay the same)
edit() { sed "$2" "$1" >edited && cat edited >"$1"; } # file, expression
# Gives a user a job that waits.
job_of() { # name
  as "$1" sh -c 'umask 077; mkdir -p ~/.local/state/coefhird/jobs; : >~/.local/state/coefhird/jobs/a0000000101e187e0'
}
as() { setpriv --reuid="$1" --regid="$1" --clear-groups --reset-env -- "${@:2}"; }

# What the program does for each call of a tool; $tool is its name.
does() { cat >does; }
# Calls a script of the package on a terminal of root's; what is shown on it lies in ./shown.
on_terminal() { script -qec "$*" /dev/null >shown 2>&1 </dev/null; }
atusers=$place/pre/bin/atusers libexec=$place/pre/libexec/coefhird
# eve's program that takes descriptors of her processes, and writes what it has got into home/eve/taken.
thief() {
  cp "$here/attack_cases/thief" home/eve/thief && chmod 755 home/eve/thief
  as eve perl home/eve/thief home/eve/taken &
  until [ -e home/eve/taken ]; do sleep 0.02; done
}
# Waits for a state, so many seconds at most.
within() { local ends=$((SECONDS + $1)); shift; until "$@"; do [ "$SECONDS" -lt "$ends" ] || return 1; sleep 0.05; done; }
