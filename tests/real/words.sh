# What the cases are written in. Each case stands in a folder of its own, and its spool is ./spool beside it.
bin=$place/bin
user=ann zone=UTC spool=$PWD/spool
extra=() as_named=()

fail() { printf '%s\n' "$*"; exit 1; }
skip() { printf '%s\n' "$*"; exit 77; }

# A spool that shuts nobody out.
opened() { spool=$PWD/${1:-spool}; mkdir -m 700 "$spool" && : >"$spool/at.deny"; }

# Becomes a call: nothing but these variables, and those in `extra`, is in its environment. In `( becomes .. ) &` the
# child is the call itself.
becomes() { exec env -i PATH=/usr/bin:/bin ATSPOOL="$spool" LOGNAME="$user" PWD="$PWD" TZ="$zone" "${extra[@]}" "${as_named[@]}" "$@"; }

# From here on, each call finds a table of users in which its user has these names, for a tool that believes $user only if it is
# one of them. It is so in a mount namespace for each call: as root, or else as the only user of a namespace.
named() { # names
  printf '%s:x:0:0::/nonexistent:/bin/sh\n' "$@" >passwd
  as_named=(unshare "$([ "$(id -u)" = 0 ] && echo -m || echo -rm)" sh -c 'mount --bind "$0" /etc/passwd && exec "$@"' "$PWD/passwd")
  "${as_named[@]}" true 2>said || skip "no call has a table of users of its own: $(tail -n 1 said)"
}

# Makes such a call.
bare() { (becomes "$@"); }

# Calls a tool with the words after it, on what is on standard input. The answer lies in $status, ./out and ./err.
call() { status=0; bare timeout -k 1 120 "$bin/$1" "${@:2}" >out 2>err || status=$?; }

# The same with these commands as standard input.
with() { printf '%s' "$1" >commands; call "${@:2}" <commands; }

# The last call ended so: its status, and what it wrote to standard output and standard error.
ended() {
  [ "$status" = "$1" ] || fail "status $status, not $1; it says: $(cat err)"
  printf '%s' "$2" | cmp -s - out || fail "standard output is $(cat out), not $2"
  printf '%s' "$3" | cmp -s - err || fail "standard error is $(cat err), not $3"
}

# The last call was refused, with this word for it.
refused() { ended "$1" '' "$2"$'\n'; }

# The last call took the job of this number.
took() {
  [ "$status" = 0 ] || fail "status $status: $(cat err)"
  grep -qE "^job $1 at (Sun|Mon|Tue|Wed|Thu|Fri|Sat) [A-Z][a-z]{2} [ 1-3][0-9] [0-9:]{8} [0-9]{4}$" err || fail "no line of job $1: $(cat err)"
}

# The file of the job of this number.
file_of() { printf '%s/' "$spool"; basename "$(printf '%s\n' "$spool"/?"$(printf %08x "$1")"????????)"; }

# Whether atd serves.
needs_atd() {
  mkdir -m 700 probe && : >probe/at.deny
  spool=$PWD/probe call atd -s </dev/null
  [ "$status" = 0 ] || skip "atd does not serve yet"
}

# Whether the calls of a program can be told, and a program be killed at one of them.
needs_strace() {
  strace=$(command -v strace) || skip 'there is no strace'
  "$strace" -o traced -y -e trace=fsync true 2>said || skip "strace cannot trace here: $(tail -n 1 said)"
  here_is=$(pwd -P)
}
