# The package as a fresh user has it, and the move from Debian's at.

# This machine's root under an overlay, in a mount namespace, so nothing of the machine is changed.
steps_of_a_package() {
  mkdir over && mount -t tmpfs tmpfs over && mkdir over/up over/work over/root \
    && mount -t overlay overlay -o "lowerdir=/,upperdir=$PWD/over/up,workdir=$PWD/over/work" over/root 2>/dev/null || skip 'there is no overlay'
  mount -t proc proc over/root/proc && mount --bind /dev over/root/dev || fail 'no /proc can be mounted'
  cp coefhird_*.deb over/root/root/ && rm -rf over/root/var/spool/atjobs* over/root/var/spool/cron/atjobs
  mount -t tmpfs -o mode=1777 tmpfs over/root/tmp || fail 'no /tmp can be mounted'
  chroot over/root /bin/bash <<'STEPS' || exit 1
fails() { printf '%s\n' "$1"; exit 1; }
export DEBIAN_FRONTEND=noninteractive PATH=/usr/sbin:/usr/bin:/sbin:/bin HOME=/root
unset TZ ATSPOOL LOGNAME USER
dpkg --remove at >/dev/null 2>&1
useradd -m fresh || fails 'there is no useradd'
# (root's zone is none of theirs)
[ ! -e /usr/share/zoneinfo/Asia/Tokyo ] || ln -sfn /usr/share/zoneinfo/Asia/Tokyo /etc/localtime
# Two jobs of Debian's wait: one of the user for 2030, and one of root whose time has passed.
old=/var/spool/cron/atjobs
mkdir -p $old
printf '#!/bin/sh\n# atrun uid=%s gid=%s\n# mail fresh 1\numask 22\ncd /home/fresh || {\n\t echo no >&2\n\t exit 1\n}\necho moved "${TZ-no zone}"\n' "$(id -u fresh)" "$(id -g fresh)" >$old/c0000301e187e0
printf '#!/bin/sh\n# atrun uid=0 gid=0\n# mail root 0\numask 22\ncd /root || {\n\t echo no >&2\n\t exit 1\n}\npwd\n' >$old/a0000201c8b522
printf 'half' >$old/a0000401c8b522
chown fresh $old/c0000301e187e0
chmod 700 $old/a0000201c8b522 $old/c0000301e187e0; chmod 600 $old/a0000401c8b522
dpkg -i --no-triggers /root/coefhird_*.deb >/root/said 2>&1 || fails "dpkg: $(tail -n 5 /root/said)"
grep -q "2 jobs of Debian's at wait in $old" /root/said || fails "the package says nothing of the jobs that wait: $(cat /root/said)"
grep -q 'MAIL=yes in /etc/default/coefhird' /root/said || fails "the package says nothing of mail: $(cat /root/said)"
/usr/libexec/coefhird/from-debian-at >/root/printed || fails 'from-debian-at prints nothing'
[ "$(grep -c 'runuser -u' /root/printed)" = 2 ] && [ -e $old/a0000201c8b522 ] || fails "it prints $(cat /root/printed)"
/usr/libexec/coefhird/from-debian-at --make 2>/root/made || fails "from-debian-at: $(cat /root/made)"
grep -qx '2 of 2 jobs moved' /root/made || fails "it says $(cat /root/made)"
[ -e /home/fresh/.local/state/coefhird/jobs/c0000000101e187e0 ] || fails "its time is another one in the zone of root: $(ls /home/fresh/.local/state/coefhird/jobs)"
# a file whose text names another user than its owner, and a link, stay where they are
sed "2s/uid=.* gid/uid=0 gid/" $old/moved.c0000301e187e0 >$old/d0000601e187e0
sed "2s/uid=.* gid/uid=$(id -u fresh) gid/" $old/moved.c0000301e187e0 >$old/e0000701e187e0
cp $old/moved.a0000201c8b522 /root/linked; ln -s /root/linked $old/f0000801e187e0
chown fresh $old/d0000601e187e0; chmod 700 $old/[de]* /root/linked
atq >/root/listed; su fresh -c 'cd; atq' >>/root/listed; ls -l $old >/root/before
/usr/libexec/coefhird/from-debian-at --make 2>/root/made && fails "another's file is moved"
[ "$(grep -c "^from-debian-at: $old/[de]000.*: no user of this machine owns it, or another than its text names\$" /root/made)" = 2 ] \
  && grep -qx "from-debian-at: $old/f0000801e187e0 is a link, and stays" /root/made && grep -qx '0 of 3 jobs moved' /root/made || fails "it says $(cat /root/made)"
{ atq; su fresh -c 'cd; atq'; } | diff - /root/listed || fails 'a job is submitted'
ls -l $old | diff - /root/before || fails 'a file is moved'
rm $old/[def]000*
/usr/libexec/coefhird/from-debian-at --make 2>/root/made; grep -qx '0 of 0 jobs moved' /root/made || fails 'it moves a job twice'
[ "$(cat $old/a0000401c8b522)" = half ] || fails 'a job that is not whole was moved'
/usr/libexec/coefhird/from-debian-at /nowhere 2>/root/made && fails 'a directory that is not there is moved'
[ "$(cat /root/made)" = 'from-debian-at: /nowhere can not be read' ] || fails "it says $(cat /root/made)"
# a job that is refused is named, and stays
lists=/home/fresh/.local/state/coefhird/jobs
echo fresh >$lists/at.deny
cp -p $old/moved.c0000301e187e0 $old/c0000501e187e0
/usr/libexec/coefhird/from-debian-at --make 2>/root/made && fails 'a refused job is moved'
grep -qx "from-debian-at: $old/c0000501e187e0 is refused, and stays" /root/made && [ -e $old/c0000501e187e0 ] || fails "it says $(cat /root/made)"
rm $old/c0000501e187e0; : >$lists/at.deny
# the user: by su, as a login, with nothing set
su fresh -c 'cd; echo "pwd; echo \$LOGNAME" | at now' >/root/said 2>&1 || fails "at of a fresh user: $(cat /root/said)"
su - fresh -c atq >/root/said 2>&1 || fails "atq of a fresh user: $(cat /root/said)"
[ "$(grep -c ' a fresh$' /root/said) $(grep -c 'Tue Jan  1 .* 2030 c fresh$' /root/said)" = '1 1' ] || fails "their jobs are $(cat /root/said)"
su fresh -c 'atd -s' >/root/said 2>&1 || fails "atd of a fresh user: $(cat /root/said)"
[ "$(su fresh -c 'atout 2')" = $'/home/fresh\nfresh' ] || fails "their job prints $(su fresh -c 'atout 2' 2>&1)"
[ "$(su fresh -c 'at -c 1' | sed -n 2p) $(su fresh -c 'at -c 1 | sh')" = '# at user=fresh mail=1 moved no zone' ] || fails "the moved job prints $(su fresh -c 'at -c 1 | sh')"
[ ! -L /etc/systemd/user/default.target.wants/atd.service ] || fails 'a unit of each user is enabled'
[ -L /etc/systemd/system/multi-user.target.wants/coefhird-boot.service ] || fails "what starts the daemons of users is not enabled: $(ls /etc/systemd/system/*.wants)"
# root
cd /tmp && echo 'echo of root' | at now 2>/root/said || fails "at of root: $(cat /root/said)"
atd -s >/root/said 2>&1 || fails "atd of root: $(cat /root/said)"
[ "$(atout 1) $(atout 2)" = '/root of root' ] || fails "root's jobs print $(atout 1) $(atout 2)"
dpkg --purge --no-triggers coefhird >/root/said 2>&1 || fails "purge: $(cat /root/said)"
[ ! -e /usr/bin/at ] && [ ! -e /usr/libexec/coefhird ] && [ -d /home/fresh/.local/state/coefhird/jobs ] || fails 'something stays'
[ ! -e /etc/systemd/user/default.target.wants/atd.service ] && [ ! -L /etc/systemd/user/default.target.wants/atd.service ] || fails 'the unit stays enabled'
STEPS
}
case_door_package() {
  for tool in dpkg-deb gzip su runuser; do command -v $tool >/dev/null || skip "there is no $tool"; done
  [ "$(id -u)" = 0 ] || skip 'only root installs a package, in a root of its own'
  DPKG_DEB_COMPRESSOR_TYPE=none BINARIES=$place/programs UNPROVED=yes sh "$here/../../packaging/build-deb.sh" "$PWD" >said 2>&1 || fail "no package: $(cat said)"
  apart steps_of_a_package
}
