# What each of the programs beside at does with its directory and its streams before anything else.

# A call of each of the four, over this directory.
each_over() { # directory, and what is called with the words
  : >table
  "$2" ataccount "$1" --show
  "$2" atcheck "$1"
  "$2" atcron "$1" -f table --turns 1
  "$2" atpost "$1" --send /bin/true --turns 1
}

# A directory that is not there is not made, nor what stands beside it.
refuses_the_directory() {
  call "$@" </dev/null
  [ "$(cat err)" = "$1: spool fault" ] || fail "$*: $status, $(cat err)"
  [ -z "$(ls -d mistyped* 2>/dev/null)" ] || fail "$1 makes $(ls -d mistyped*)"
}
case_mains_make_no_directory() { opened; each_over "$PWD/mistyped" refuses_the_directory; }

# With all streams closed no file of the spool takes what is to be said: the next file that is opened would be one of them.
says_into_no_file() {
  cp -r "$spool" before
  status=0; bare timeout 20 "$bin/$1" "${@:2}" >&- 2>&- <&- || status=$?
  for file in "$spool"/* "$spool"/.[A-Z]*; do
    [ ! -e "$file" ] || ! grep -qE "^$1: |^ann a |damaged at" "$file" || fail "$1: $file has what was to be said: $(cat "$file")"
  done
  [ "$(stat -c %s "$spool.lock")" -le 1 ] || fail "$1: the lock took what was to be said"
  rm -rf "$spool"; mv before "$spool"
}
case_mains_with_closed_streams() {
  opened
  with 'true' at -t 203001010000; took 1
  # (a fault for atcheck to tell, and a crontab line for atcron to refuse, are told too)
  each_over "$spool" says_into_no_file
  printf 0 >"$spool/.SEQ"
  each_over "$spool" says_into_no_file
}

# While one of them waits for the lock, a directory has the place of each stream that it was given closed, so no file that it
# opens later has one.
holds_the_places() {
  local child place
  (becomes "$bin/$1" "${@:2}" >&- 2>&- <&- 9<&-) & child=$!
  for _ in $(seq 100); do
    [ -z "$(find "/proc/$child/fd" -lname "$spool.lock" 2>/dev/null)" ] || break
    sleep 0.1
  done
  for place in 0 1 2; do
    [ "$(readlink "/proc/$child/fd/$place")" = / ] || fail "$1: $(readlink "/proc/$child/fd/$place" || echo nothing) is in place $place"
  done
  kill -9 "$child"; wait "$child" 2>/dev/null
}
case_mains_hold_the_places_of_closed_streams() {
  command -v flock >/dev/null || skip 'there is no flock'
  opened
  with 'true' at -t 203001010000; took 1
  exec 9<"$spool.lock"; flock 9
  each_over "$spool" holds_the_places
  exec 9<&-
}
