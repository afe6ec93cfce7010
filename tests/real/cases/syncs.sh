# What a call syncs before it answers, and in which order, as strace sees it. A power cut is not seen without it.

# Calls a tool under strace, as `call` does. What it wrote into the spool, synced, moved, removed, started and said lies in
# ./calls, a line each: `folder` is the spool, `parent` where it lies, JOB the file of a job. (The spool is the current
# directory of a call, so that ./NAME is a file of it.)
traced() {
  status=0
  bare timeout -k 1 40 "$strace" -y -s 24 -o traced \
    -e 'trace=write,pwrite64,fsync,fdatasync,?rename,?renameat,?renameat2,?unlink,unlinkat,clone,?clone3,?fork,?vfork' \
    "$bin/$1" "${@:2}" >out 2>err || status=$?
  [ "$status" = 0 ] || fail "status $status: $(cat err)"
  sed -nE '
    s/^f(data)?sync\([0-9]+<([^>]*)>\) += 0$/sync \2/p
    s/^write\([0-9]+<([^>]*\/spool\/[^>]*)>, .*$/write \1/p
    s/^pwrite64\([0-9]+<([^>]*\/spool\/[^>]*)>, .*, [0-9]+, ([0-9]+)\) += [0-9]+$/write \1 at \2/p
    s/^rename(at2?)?\((AT_FDCWD[^,]*, )?"([^"]*)", (AT_FDCWD[^,]*, )?"([^"]*)".*\) += 0$/rename \3 \5/p
    s/^unlink(at)?\((AT_FDCWD[^,]*, )?"([^"]*)".*\) += 0$/remove \3/p
    s/^(clone3?|fork|vfork)\(.*$/start/p
    s/^write\([12]<[^>]*>, "(job [0-9]+ [a-z]+).*$/says \1/p
    ' traced | sed -E "s|$here_is/spool/||g; s| \./| |g; s| $here_is/spool\$| folder|; s| $here_is\$| parent|; s|\\<[a-zA-Z=][0-9a-f]{16}\\>|JOB|g" >calls
}

# The last traced call was these, a line each.
made() { printf '%s\n' "$@" | diff - calls >difference || fail "the calls differ (wanted <, seen >): $(cat difference)"; }

# A file that takes a name: its bytes are certain before it has the name, and the name before the answer.
placed() { printf '%s\n' 'write .TMP' 'sync .TMP' "rename .TMP $1" 'sync folder'; }

# A mark in the slot of the journal at this byte: it is certain before its gate opens, and the gate before the answer.
marked() { printf '%s\n' "write .JRN at $(($1 + 1))" 'sync .JRN' "write .JRN at $1" 'sync .JRN'; }

case_syncs_of_a_submission() {
  needs_strace; opened
  mapfile -t all < <(placed .SEQ; placed JOB)
  # The folder of outputs is new, and nobody has told what of the folder is unsynced.
  traced at now <<<true
  made 'sync parent' 'sync at.deny' 'sync parent' 'sync folder' "${all[@]}" 'says job 1 at'
  traced at -t 203001010000 <<<true
  made "${all[@]}" 'says job 2 at'
}

case_syncs_of_a_removal() {
  needs_strace; opened
  with true at -t 203001010000; took 1
  with true at -t 203001010000; took 2
  mapfile -t journal < <(placed .JRN)
  mapfile -t first < <(marked 0)
  mapfile -t second < <(marked 32)
  traced atrm 2
  made 'sync folder' "${journal[@]}" "${first[@]}" 'remove JOB' 'sync folder'
  traced atrm 1
  made "${second[@]}" 'remove JOB' 'sync folder'
}

case_syncs_of_a_run() {
  needs_strace; needs_atd; opened
  with true at now; took 1
  with true at -t 203001010000; took 2
  with '' atrm 2
  mapfile -t begun < <(marked 32)
  mapfile -t ended < <(marked 64)
  traced atd -s </dev/null
  made "${begun[@]}" start 'says job 1 handed' "${ended[@]}" 'remove JOB' 'sync folder' 'says job 1 exit'
}

case_syncs_of_a_settle() {
  needs_strace; opened
  with true at -t 203001010000; took 1
  with true at -t 203001010000; took 2
  with '' atrm 2
  printf c >spool.lock; traced atq </dev/null
  [ ! -s calls ] || fail "a settled folder is synced: $(cat calls)"
  printf n >spool.lock; traced atq </dev/null
  made 'sync folder'
  printf a >spool.lock; traced atq </dev/null
  made 'sync at.deny' 'sync JOB' 'sync .SEQ' 'sync .JRN' 'sync parent' 'sync folder'
}

# A script of the package under strace, all its processes: what it syncs, moves and removes below a folder, and what it says,
# lie in ./calls, a line each.
traced_script() { # folder, word..
  status=0
  timeout -k 1 60 "$strace" -f -y -s 80 -o traced -e 'trace=fsync,?rename,?renameat,?renameat2,?unlink,unlinkat,write' "${@:2}" >out 2>err || status=$?
  [ "$status" = 0 ] || fail "status $status: $(cat err)"
  sed -nE '
    s/^[0-9]+ +//
    s/^fsync\([0-9]+<([^>]*)>\) += 0$/sync \1/p
    s/^rename(at2?)?\((AT_FDCWD[^,]*, )?"([^"]*)", (AT_FDCWD[^,]*, )?"([^"]*)".*\) += 0$/rename \3 \5/p
    s/^unlink(at)?\((AT_FDCWD[^,]*, )?"([^"]*)".*\) += 0$/remove \3/p
    s/^write\([12]<[^>]*>, "([0-9]+ of [^"\\]*).*$/says \1/p
  ' traced | grep -E "^says | $1(/|\$)" | sed -E "s|$1\\>|HERE|g; s|crontab\.new\.[0-9]+\.[A-Za-z0-9]{6}\\>|crontab.NEW|g" >calls
}
steps_of_a_crontab() {
  needs_strace
  chmod -R a+rX "$place/pre" "$place/door" 2>/dev/null
  printf '0 0 * * * later\n' >other; chmod 644 other
  local table=HERE/.config/coefhird/crontab
  local user=(setpriv --reuid=$number --regid=$number --clear-groups env -i PATH=/usr/bin:/bin "$door/atcrontab")
  traced_script "$PWD/home" "${user[@]}" "$PWD/other"
  # (atcron tries it on a spool of its own, which goes with the other temporary files)
  sed -i -E "/NEW(.jobs.*)?\$|^remove/d" calls
  made "sync $table.NEW/new" "rename $table.NEW/new $table" 'sync HERE/.config/coefhird' 'sync HERE/.config' 'sync HERE'
  traced_script "$PWD/home" "${user[@]}" -r
  made "remove $table" 'sync HERE/.config/coefhird'
}
case_syncs_of_a_crontab() { doored; apart steps_of_a_crontab; }

steps_of_a_move() {
  needs_strace
  command -v runuser >/dev/null || skip 'there is no runuser'
  mkdir -m 700 /var/spool/atjobs old && : >/var/spool/atjobs/at.deny
  debians_job() { printf '#!/bin/sh\n# atrun uid=0 gid=0\n# mail root 0\numask 22\ntrue\n' >"old/$1"; chmod 700 "old/$1"; }
  moves() { status=0; "$place/pre/libexec/coefhird/from-debian-at" --make "$PWD/old" >out 2>err || status=$?; }
  moved() { [ "$(find /var/spool/atjobs -name 'a0*' | wc -l)" = "$1" ] || fail "$2: the jobs are $(ls /var/spool/atjobs): $(cat out err)"; }
  debians_job a0000101c8b522
  traced_script "$PWD/old" "$place/pre/libexec/coefhird/from-debian-at" --make "$PWD/old"
  made 'rename HERE/a0000101c8b522 HERE/moving.a0000101c8b522' 'sync HERE' \
    'rename HERE/moving.a0000101c8b522 HERE/moved.a0000101c8b522' 'sync HERE' 'says 1 of 1 jobs moved'
  moved 1 'a move'
  # A call that ends at its first rename, or at its last one: no job is submitted twice, and the next call says what is left.
  ends_at() { # path that a rename has
    "$strace" -f -o /dev/null -P "$PWD/old/$1" -e trace=rename,renameat,renameat2 -e inject=rename,renameat,renameat2:error=EIO \
      "$place/pre/libexec/coefhird/from-debian-at" --make "$PWD/old" >said 2>&1 && fail "$1: no step failed"
  }
  debians_job a0000201c8b522; ends_at a0000201c8b522; moved 1 'a call that ends before it begins'
  moves; [ "$status" = 0 ] || fail "afterwards: $status: $(cat err)"; moved 2 'the next call'
  debians_job a0000301c8b522; ends_at moved.a0000301c8b522; moved 3 'a call that ends after the answer of at'
  moves; moved 3 'the next call'
  [ "$status" = 1 ] && grep -q "^from-debian-at: $PWD/old/moving.a0000301c8b522 was being moved as a call ended: " err || fail "it says: $status: $(cat err)"
}
case_syncs_of_a_move() { doored; apart steps_of_a_move; }

# What is saved, and the lists, are on the disk before they have the name of the spool.
case_syncs_of_a_salvage() {
  needs_strace; doored; opened; echo ann >spool/at.allow
  with true at -t 203001010000; took 1
  printf 0000000 >spool/.SEQ
  traced_script "$PWD" env -i PATH=/usr/bin:/bin ATSPOOL="$spool" "$door/atsalvage" --yes
  sed -n '/^sync HERE.spool.new..ATD$/,$p' calls | grep -v '^remove' >swapped; mv swapped calls
  made 'sync HERE/spool.new/.ATD' 'sync HERE/spool.new/at.allow' 'sync HERE/spool.new/at.deny' 'sync HERE/spool.new' 'sync HERE/spool.lock' \
    'rename HERE/spool HERE/spool.bad' 'rename HERE/spool.new HERE/spool' 'sync HERE'
}

# So is a copy that is put back, with its outputs.
case_syncs_of_a_restore() {
  needs_strace; doored; opened
  with true at -t 203001010000; took 1
  mkdir -p copy spool.out; : >spool.out/a0000000101e187e0; cp -a spool spool.out copy/
  traced_script "$PWD" env -i PATH=/usr/bin:/bin ATSPOOL="$spool" "$door/atrestore" --yes copy/spool
  grep -v '^remove' calls | sed -n '/sync HERE.spool.restore$/,$p' >swapped; sort swapped | uniq -c >counted
  for made in spool.restore spool.restore/.SEQ "spool.restore/$(basename "$(file_of 1)")" spool.restore/.ATD spool.restore.out spool.restore.out/a0000000101e187e0; do
    grep -q " sync HERE/$made\$" counted || fail "$made is not synced: $(cat calls)"
  done
  tail -n 8 swapped >calls
  made 'sync HERE/spool.restore/.SEQ' 'sync HERE/spool.restore' 'sync HERE/spool.lock' 'rename HERE/spool.out HERE/spool.bad.out' \
    'rename HERE/spool.restore.out HERE/spool.out' 'rename HERE/spool HERE/spool.bad' 'rename HERE/spool.restore HERE/spool' 'sync HERE'
}

# A first spool is on the disk before a job is accepted, with rights for its user alone, whatever the umask is.
steps_of_a_first_spool() {
  needs_strace
  home=$PWD/home
  for mask in 0000 0277; do
    rm -rf home/.local
    umask $mask
    traced_script "$PWD/home" setpriv --reuid=$number --regid=$number --clear-groups env -i HOME="$home" TZ=UTC "$door/at" -t 203001010000
    umask 0022
    [ "$(stat -c %a home/.local home/.local/state/coefhird/jobs{,.out,.lock} | paste -sd ' ')" = '700 700 700 600' ] && [ -z "$(find home/.local -perm /077)" ] \
      || fail "with umask $mask the rights are $(stat -c '%a %n' home/.local/state/coefhird/jobs* home/.local/state/coefhird/jobs/*)"
    # (each name is on the disk before anything is put below it)
    sed -n '1,/at.deny/p' calls | sed 's|HERE/.local/state/coefhird|HERE/STATE|' >first; mv first calls
    made 'sync HERE/.local' 'sync HERE' 'sync HERE/.local/state' 'sync HERE/.local' 'sync HERE/STATE' 'sync HERE/.local/state' \
      'sync HERE/STATE/jobs' 'sync HERE/STATE' 'sync HERE/STATE/jobs/.ATD' 'sync HERE/STATE/jobs' 'sync HERE/STATE/jobs/at.deny'
  done
}
case_syncs_of_a_first_spool() { doored; apart steps_of_a_first_spool; }
