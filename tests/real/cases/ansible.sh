# The module of Ansible that drives at, as it is, over the installed tools.

# A task of the module with these words, and whether it is to have changed anything.
task() { # words, true or false
  printf -- '  - ansible.posix.at: { %s }\n    register: said\n  - ansible.builtin.assert: { that: said.changed == %s }\n' "$1" "$2"
}

# Plays the tasks on standard input.
play() {
  { printf -- '- hosts: localhost\n  connection: local\n  gather_facts: false\n  tasks:\n'; cat; } >play.yml
  env -i PATH="$door:/usr/sbin:/usr/bin:/sbin:/bin" HOME="$PWD" LC_ALL=C.UTF-8 ATSPOOL="$spool" TZ=UTC ANSIBLE_PYTHON_INTERPRETER=/usr/bin/python3 \
    ansible-playbook -i localhost, play.yml >played 2>&1 || fail "the play: $(cat played)"
}

# The minutes from then until the time of each job that waits, in order of their numbers, the first of them rounded down.
minutes_of() {
  env -i PATH=/usr/bin:/bin ATSPOOL="$spool" TZ=UTC "$door/atq" | sort -n | cut -f 2 | while read -r day month date time year _; do
    printf '%s ' $((($(date -u -d "$day $month $date $time $year" +%s) - $1) / 60))
  done
}

case_door_ansible() {
  command -v ansible-playbook >/dev/null && ansible-doc -t module ansible.posix.at >/dev/null 2>&1 || skip 'there is no ansible.posix.at'
  doored; opened
  begun=$(date +%s)
  {
    task 'command: echo minutes, count: 10, units: minutes' true
    task 'command: echo hours, count: 10, units: hours' true
    task 'command: echo days, count: 10, units: days' true
    task 'command: echo weeks, count: 10, units: weeks' true
    task 'command: echo hours, count: 2, units: days, unique: true' false
    task 'command: echo once, count: 2, units: days, unique: true' true
    task 'command: echo days, state: absent' true
    task 'command: echo days, state: absent' false
  } | play
  took=$((($(date +%s) - begun) / 60 + 1))
  # (a job is in the minute of its submission, so at most that minute early, and as late as the play took)
  expected=(10 600 100800 2880) number=0
  read -r -a found <<<"$(minutes_of "$begun")"
  [ "${#found[@]}" = 4 ] || fail "the jobs are $(ATSPOOL=$spool "$door/atq")"
  for minutes in "${expected[@]}"; do
    late=$((found[number] - minutes)) number=$((number + 1))
    [ "$late" -ge -1 ] && [ "$late" -le "$took" ] || fail "job $number of those left is $late minutes from its time"
  done
  # What waits are the commands that were given, and one that is removed is not among them.
  [ "$(for job in "$spool"/a*; do tail -n 1 "$job"; done | paste -sd ,)" = 'echo minutes,echo hours,echo weeks,echo once' ] || fail "the commands are $(tail -qn 1 "$spool"/a*)"
}
