# Spools that are odd, full, closed or damaged.

case_a_new_spool() {
  user=root with 'true' at noon tomorrow
  took 1
  [ "$(stat -c %a spool)" = 700 ] && [ -d spool.out ] && [ -f spool.lock ] || fail 'the folders are not made'
  spool=$PWD/none/spool user=root with 'true' at noon tomorrow
  refused 2 'at: spool fault'
  : >file
  spool=$PWD/file user=root with 'true' at noon tomorrow
  refused 2 'at: spool fault'
}

case_what_is_no_plain_file() {
  opened
  with 'true' at -t 203001010000; took 1
  job=$(basename "$(file_of 1)")
  mkfifo "spool/a0000000201b968a0"; mkfifo spool/fifo; mkdir "spool/a0000301b968a0"
  ln -s "$job" "spool/a0000401b968a0"; ln -s /dev/zero spool/link; : >spool/README; : >"spool/two words"
  with '' atq; ended 0 $'1\tTue Jan  1 00:00:00 2030 a ann\n' ''
  with 'true' at -t 203001010000; took 2
  with '' atrm 1; ended 0 '' ''
  [ -p spool/fifo ] && [ -p "spool/a0000000201b968a0" ] && [ -L "spool/a0000401b968a0" ] && [ -d "spool/a0000301b968a0" ] || fail 'other files are gone'
}

case_a_spool_that_is_a_link() {
  opened real
  ln -s real spool
  spool=$PWD/spool
  with 'true' at -t 203001010000; took 1
  [ -f real.lock ] && [ -d real.out ] && [ ! -e spool.lock ] || fail 'one folder has two locks'
  spool=$PWD/real with '' atq; ended 0 $'1\tTue Jan  1 00:00:00 2030 a ann\n' ''
}

# tests/real/before was made by the program of before numbers of eight digits: job 1 runs, or did when its machine went
# down, job 2 is due in 2030, and job 3 is due.
case_a_spool_of_before() {
  needs_atd
  cp -r "$here/before" spool; chmod 700 spool; spool=$PWD/spool
  with '' atq
  ended 0 $'1\tSat Nov 28 06:26:00 2026 = ann\n3\tSat Nov 28 06:26:00 2026 a ann\n2\tTue Jan  1 00:00:00 2030 a ann\n' ''
  with 'echo four' at now; took 4
  [ -f "$(file_of 4)" ] && [ "$(cat spool/.SEQ)" = 00000004 ] || fail "the next job is in $(ls spool)"
  with '' at -c 2; cmp -s out spool/a0000201e187e0 || fail 'what is shown is not job 2'
  with '' atrm 2; ended 0 '' ''
  [ ! -e spool/a0000201e187e0 ] || fail 'the file of job 2 stays'
  call atd -s </dev/null
  [ "$status" = 0 ] || fail "atd ends with $status: $(cat err)"
  for line in 'job 1 interrupted' 'job 3 handed over' 'job 3 exit 0' 'job 4 handed over' 'job 4 exit 0'; do
    grep -qx "$line" out || fail "there is no line '$line' in $(cat out)"
  done
  [ "$(cat spool.out/a0000301c8b522)" = three ] || fail 'job 3 has not its output'
  [ -z "$(find spool -name 'a0*')" ] || fail "there are files left: $(ls spool)"
}

case_a_folder_that_is_gone() {
  opened
  mkdir gone; cd gone || exit 1
  rmdir ../gone
  status=0; bare "$bin/atq" >../out 2>../err </dev/null || status=$?
  (cd .. && [ "$status" = 0 ]) || fail "atq ends with $status"
  spool=spool; status=0; bare "$bin/atq" >../out 2>../err </dev/null || status=$?
  [ "$status" = 2 ] || fail "a spool below a folder that is gone: $status"
  user=; status=0; bare "$bin/at" now >../out 2>../err </dev/null || status=$?
  [ "$status" = 1 ] || fail "at ends with $status"
}

case_damages() {
  opened
  printf '0000g\n' >spool/.SEQ
  with '' atq; refused 7 'atq: .SEQ damaged at 4'
  with 'true' at noon tomorrow; refused 7 'at: .SEQ damaged at 4'
  printf '00001\n' >spool/.SEQ; printf '.%.0s' $(seq 33) >spool/.JRN
  with '' atq; refused 7 'atq: .JRN damaged at 32'
  rm spool/.JRN; printf '#!/bin/sh\n' >spool/a0000201b968a0
  with '' atq; refused 7 'atq: a0000201b968a0 damaged at 0'
}

case_a_file_size_limit() {
  opened
  with 'true' at -t 203001010000; took 1
  head -c 900000 /dev/zero | tr '\0' '#' >large
  trap '' XFSZ
  (ulimit -f 100; status=0; bare timeout 40 "$bin/at" noon tomorrow >out 2>err <large || status=$?; [ "$status" = 2 ] || exit 1) \
    || fail "a job that does not fit: $(cat err)"
  with '' atq; ended 0 $'1\tTue Jan  1 00:00:00 2030 a ann\n' ''
  call at noon tomorrow <large
  [ "$status" = 0 ] || fail "no job after it: $(cat err)"
}

case_a_full_disk() {
  [ "$(id -u)" = 0 ] && command -v mount >/dev/null || skip 'only root mounts a small disk'
  mkdir disk
  mount -t tmpfs -o size=256k tmpfs disk 2>/dev/null || skip 'no small disk can be mounted'
  trap 'umount "$OLDPWD/disk" 2>/dev/null || umount disk' EXIT
  opened disk/spool
  with 'true' at -t 203001010000; took 1
  head -c 400000 /dev/zero >disk/filler 2>/dev/null
  with 'true' at -t 203001010000; refused 2 'at: spool fault'
  with '' atq
  [ "$status" = 0 ] && grep -q '^1	' out || fail "after a full disk: $(cat out err)"
  rm disk/filler
  with 'true' at -t 203001010000
  [ "$status" = 0 ] || fail "no job once there is room: $(cat err)"
  with '' at -c 1; [ "$(tail -n 1 out)" = true ] || fail 'the job before it is gone'
}

case_a_read_only_folder() {
  opened
  with 'true' at -t 203001010000; took 1
  if [ "$(id -u)" = 0 ]; then
    command -v setpriv >/dev/null || skip 'root writes everywhere, and there is no setpriv'
    chown -R 65534:65534 spool spool.lock spool.out; chmod 755 .
    as=(setpriv --reuid=65534 --regid=65534 --clear-groups)
  else
    as=()
  fi
  chmod 500 spool
  for words in 'atq:0' 'at -t 203001010000:2' 'atrm 1:2'; do
    # shellcheck disable=SC2086
    set -- ${words%:*}
    status=0; bare "${as[@]}" "$bin/$1" "${@:2}" >out 2>err </dev/null || status=$?
    [ "$status" = "${words##*:}" ] || fail "$words: $status, $(cat out err)"
  done
  chmod 700 spool
  user=root with '' atq; ended 0 $'1\tTue Jan  1 00:00:00 2030 a ann\n' ''
}

# The umask decides what a job makes, and not whether its owner may open the spool.
case_a_umask_that_takes_all_rights() {
  as=()
  if [ "$(id -u)" = 0 ]; then
    command -v setpriv >/dev/null || skip 'root opens everything, and there is no setpriv'
    as=(setpriv --reuid=65534 --regid=65534 --clear-groups)
  fi
  mkdir -m 777 home; chmod 755 .
  spool=$PWD/home/spool user=root
  for number in 1 2; do
    (umask 0777; printf 'true' | bare "${as[@]}" "$bin/at" -t 203001010000) 2>err || fail "no job $number: $(cat err)"
  done
  [ -z "$(find home/spool* -type f ! -perm 600 -o -type d ! -perm 700)" ] || fail "the rights: $(ls -lR home)"
  (umask 0777; bare "${as[@]}" "$bin/at" -c 2) >out 2>err </dev/null || fail "job 2 is not told: $(cat err)"
  grep -qx 'umask 0777' out || fail 'the umask of the job is lost'
  (umask 0777; bare "${as[@]}" "$bin/atrm" 1 2) 2>err </dev/null || fail "the jobs stay: $(cat err)"
}

# A spool that is named by a relative path is the same one in each session, and a script and the folder of its job are the
# caller's own.
case_a_relative_spool() {
  needs_atd
  opened
  mkdir folder; cd folder || exit 1
  printf 'pwd\n' >script
  spool=../spool call at -f script now; took 1
  spool=../spool call atd -s </dev/null; ended 0 $'job 1 handed over\njob 1 exit 0\n' ''
  call at -f script now; took 2
  call atd -s </dev/null; ended 0 $'job 2 handed over\njob 2 exit 0\n' ''
  for output in "$spool".out/*; do [ "$(cat "$output")" = "$PWD" ] || fail "a job ran in $(cat "$output")"; done
  [ "$(echo ../*spool* *spool*)" = '../spool ../spool.lock ../spool.out *spool*' ] || fail "there is $(ls .. .)"
}

# Each is opened at most once, and costs no more than that.
case_many_foreign_files() {
  opened
  with 'true' at -t 203001010000; took 1
  seq 100000 | (cd spool && split -a 6 -d -l 1 - foreign)
  time_of() { ( TIMEFORMAT='%U %S'; time bare "$@" >out 2>err </dev/null ) 2>&1 | awk '{ printf "%d", ($1 + $2) * 1000 }'; }
  least=999999
  for _ in 1 2 3; do
    took=$(time_of "$bin/atq"); [ "$took" -ge "$least" ] || least=$took
    [ "$(cat out)" = $'1\tTue Jan  1 00:00:00 2030 a ann' ] || fail "it lists $(cat out)"
  done
  [ "$least" -lt 1500 ] || fail "a call over 100,000 foreign files takes $least ms of processor time"
}
