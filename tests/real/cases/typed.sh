# What people type: times.txt by a clock that is told.

# The accepted line of a minute, as `date` prints it.
minute_of() { LC_ALL=C date -u -d "$1" '+job 1 at %a %b %e %H:%M:00 %Y'; }

# Each time of times.txt gives its minute, or is refused at its byte.
case_times_that_people_type() {
  local typed wanted _ counted=0
  command -v cc >/dev/null || skip 'there is no cc'
  cc -shared -fPIC "-DFROM=$(date -u -d '2026-06-03 09:19:30' +%s)LL" -o clock.so "$here/told_clock.c" || fail 'the clock is not compiled'
  extra=(LD_PRELOAD="$PWD/clock.so") zone=UTC
  while IFS='|' read -r typed wanted _; do
    rm -rf spool && opened
    # shellcheck disable=SC2086
    with true at $typed
    case $wanted in
      byte*) refused 1 "at: bad time at $wanted" ;;
      *) ended 0 '' "$(minute_of "$wanted")"$'\n' ;;
    esac
    counted=$((counted + 1))
  done < <(grep -v '^#' "$here/times.txt")
  [ "$counted" = 100 ] || fail "$counted times were tried, not 100"
}
