#!/bin/sh
# Removes what install.sh put below PREFIX. Spools stay, and what lies beside them. End atd before: that is `systemctl disable
# --now` with the units that install.sh names, and `systemctl stop 'coefhird-at*@*'`, and for the unit of one user
# `systemctl --user disable --now atd`.
set -eu
here=$(cd "$(dirname "$0")/.." && pwd)
PREFIX=${PREFIX:-/usr/local}
to=${DESTDIR:-}$PREFIX
begun=$(mktemp)
trap 'rm -f "$begun"' EXIT
rm -f "$to/share/zsh/site-functions/_at" \
    "$to/lib/tmpfiles.d/coefhird.conf" \
    "$to/share/user-tmpfiles.d/coefhird.conf" \
    "$to/share/doc/coefhird/hardening.conf"
for unit in "$here"/packaging/systemd/user-* "$here"/packaging/systemd/system-*; do
    name=${unit##*/}
    name=${name#*-}
    rm -f "$to/share/systemd/user/$name" "$to/lib/systemd/user/$name" "$to/lib/systemd/system/$name"
done
# Its commands, and the program.
while read -r kind tool where what page; do
    [ "$kind" = command ] || continue
    rm -f "$to/libexec/coefhird/$tool" "$to/libexec/coefhird/$what" "$to/libexec/coefhird/$what.built"
    [ "$where" != libexec ] || continue
    rm -f "$to/bin/$tool" "$to/sbin/$tool" \
        "$to/share/bash-completion/completions/$tool" \
        "$to/share/fish/vendor_completions.d/$tool.fish" \
        "$to/share/man/man${page##*.}/$tool.${page##*.}"
done <"$here/packaging/programs"
for page in "$here"/man/*.[158]; do rm -f "$to/share/man/man${page##*.}/${page##*/}"; done
rm -f "$to/share/man/man5/at.deny.5"
for folder in libexec/coefhird share/doc/coefhird; do rmdir "$to/$folder" 2>/dev/null || true; done

# What is left: the jobs, their lock and their outputs.
[ -z "${DESTDIR:-}" ] || exit 0
[ ! -d "$to" ] || find "$to" -type d -cnewer "$begun" -exec sync -- {} +
case $PREFIX in
    "${HOME:-/nowhere}"/*) set -- "$HOME/.local/state/coefhird/jobs" "${XDG_STATE_HOME:-$HOME/.local/state}/coefhird/jobs" "$HOME/.config/coefhird/jobs" ;;
    *) set -- /var/spool/atjobs /var/spool/coefhird ;;
esac
for spool; do
    for left in "$spool" "$spool.lock" "$spool.out" "$spool.accounts"; do [ ! -e "$left" ] || echo "$left"; done
done | sort -u | sed 's/^/uninstall.sh: stays: /'
