# What a job takes over from its caller. The text is run here by the shell that would run it.

ran() { call at -c "$1" </dev/null; cp out script; status=0; env -i /bin/sh script >out 2>err </dev/null || status=$?; }

case_hostile_variables() {
  opened
  value=$(printf 'it'\''s "$HOME" `echo no` $(echo no) \\ \n!*?#;&|<>\ttail ')
  extra=(VALUE="$value" LINES_=$'\n\n' EMPTY= TERM=x DISPLAY=y "odd-name=1")
  with 'printf "%s" "$VALUE" >value; printf "%s" "$LINES_" >lines; printf "%s" "${EMPTY-none}" >empty; printf "%s" "${TERM-none}" >term' \
    at noon tomorrow
  took 1
  ran 1
  [ "$status" = 0 ] || fail "the job ends with $status: $(cat err)"
  printf '%s' "$value" | cmp -s - value || fail "the value is $(cat value)"
  printf '\n\n' | cmp -s - lines || fail 'newlines of a value are lost'
  cmp -s /dev/null empty || fail 'an empty value is lost'
  [ "$(cat term)" = none ] || fail 'TERM is taken over'
}

case_variables_that_are_no_texts() {
  opened
  extra=(BAD=$'\xff\xfe' GOOD=fine)
  with 'printf "%s %s" "$GOOD" "${BAD-none}"' at noon tomorrow
  took 1
  ran 1
  ended 0 'fine none' ''
}

case_umasks() {
  opened
  for mask in 0000 0027 0077; do
    (umask "$mask"; status=0; printf 'umask' | bare "$bin/at" noon tomorrow 2>/dev/null) || fail "no job with the umask $mask"
  done
  ran 2
  ended 0 $'0027\n' ''
  grep -qx 'umask 0000' "$(file_of 1)" && grep -qx 'umask 0077' "$(file_of 3)" || fail 'a umask is lost'
  [ "$(stat -c %a "$(file_of 1)")" = 600 ] && [ "$(stat -c %a spool.out)" = 700 ] || fail 'others may read a job'
}

case_directories() {
  opened
  odd="it's a \"\$folder\""
  mkdir "$odd"
  printf 'pwd' >commands
  (cd "$odd" && bare "$bin/at" -f ../commands noon tomorrow 2>/dev/null) || fail 'no job in an odd folder'
  ran 1
  ended 0 "$PWD/$odd"$'\n' ''
  rmdir "$odd"
  ran 1
  [ "$status" = 1 ] && tail -n 1 err | grep -qx 'Execution directory inaccessible' || fail "status $status: $(cat err)"
}
