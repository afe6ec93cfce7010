#!/bin/sh
# Installs the commands of packaging/programs, with their man pages, completions and units: the proved program is
# PREFIX/libexec/coefhird/coefhird, and each of its names in PREFIX/bin is a link to it. The scripts are files of their own.
#
#   packaging/install.sh                             for the machine, below /usr/local
#   PREFIX="$HOME/.local" packaging/install.sh       for one user, without root
#
# PREFIX       where to install
# DESTDIR      a directory in the place of the root, to make a package
# BINARY       a coefhird that was built from these sources before
# BINARIES     a directory that has it by the name of its crate
# UNPROVED     yes: install a program without a record, as not proved
# BUILD_ONLY   yes: prove and build the program, and install nothing
# --cpu NAME   x86-64 for each processor of that kind; without it those since 2009 or so, which x86-64-v2 means
#
# Beside a program PROGRAM is the record of what proved it, PROGRAM.record: its checksum, the commit and the toolchain. The
# gate (.ci/run) writes it, and so does this script where the toolchain proves and builds the program here, which it does
# where none is built or a source is newer. A program whose record is absent, or of another program, is refused. What is
# installed keeps that record as coefhird.built, from which `--version` prints the commit and the toolchain.
#
# ^C, or another signal that ends it, leaves what was installed before as it was, unless the copying had begun: then call it
# once more.
set -eu
here=$(cd "$(dirname "$0")/.." && pwd)
PREFIX=${PREFIX:-/usr/local}
DESTDIR=${DESTDIR:-}
to=$DESTDIR$PREFIX
begun=$(mktemp) telling=
trap 'rm -f "$begun"; [ -z "$telling" ] || kill "$telling" 2>/dev/null || true' EXIT
trap 'echo "install.sh: stopped" >&2; exit 130' HUP INT TERM
stops() { echo "install.sh: $1" >&2; exit 1; }
case $PREFIX in
    *[\'\"\|\&\\%]* | *"
"*) stops 'PREFIX is to have no quotes, and none of |, &, \ and %' ;;
    /*) ;;
    *) stops 'PREFIX is to begin with /' ;;
esac
case $#,${1:-} in 0, | 2,--cpu) ;; *) stops 'usage: install.sh [--cpu NAME]' ;; esac
[ $# = 0 ] || [ -z "${BINARY:-}${BINARIES:-}" ] || stops 'a BINARY is built already: give no --cpu'

# The commands of the list: `commands EXPRESSION [FIELD]` gives the names, or that field, of those for whose fields, where,
# what and page, it holds.
commands() { awk '$1 == "command" { name = $2; where = $3; what = $4; page = $5; if ('"$1"') print '"${2:-name}"' }' "$here/packaging/programs"; }
crates=$(awk '$1 == "command" && $4 != "script" && !seen[$4]++ { print $4 }' "$here/packaging/programs")

is_stale() {
    [ ! -x "$1" ] || [ -n "$(find "$here/crates" "$here/crates.txt" -name out -prune -o -type f -newer "$1" -print)" ]
}
# The program of a crate. A first run with words that touch no folder has the toolchain prove and build it.
binary_of() { # crate, and --cpu NAME
    crate=$1
    shift
    binary=$here/crates/$crate/out/$crate
    if [ -n "${BINARY:-}" ]; then
        binary=$BINARY
    elif [ -n "${BINARIES:-}" ]; then
        binary=$BINARIES/$crate
    elif [ $# = 2 ] || is_stale "$binary"; then
        command -v rt >/dev/null || stops 'the toolchain is not here: give a BINARY'
        [ -w "$here/crates/$crate" ] || stops "you may not write in $here: clone it, or give a BINARY"
        build "$@"
        # (a program that is built anew is another one, whatever its record says)
        printf 'sha256 %s\ncommit %s\ntoolchain %s\n' "$(sha256sum <"$binary" | cut -c 1-64)" "$(commit_here)" "$(rt version)" >"$binary.record"
    fi
    [ -x "$binary" ] || stops "$binary is no program"
}
# The commit of these sources, where git knows it, and whether they are changed since.
commit_here() {
    commit=$(git -C "$here" rev-parse HEAD 2>/dev/null) || commit=unknown
    [ "$commit" = unknown ] || [ -z "$(git -C "$here" status --porcelain 2>/dev/null)" ] || commit="$commit, changed"
    printf '%s' "$commit"
}
# The toolchain proves $crate and what is below it, and builds $binary. What it says goes into a log.
build() {
    log=$(mktemp "${TMPDIR:-/tmp}/coefhird_$crate.XXXXXX")
    echo "install.sh: proving and building $crate: about an hour where nothing is proved yet; the log is $log" >&2
    rm -f "$binary"
    # (which makes a simulated run in memory)
    set -- "$@" -- atday --make 8
    # (the toolchain is the one that stays in reach of ^C)
    if [ -t 2 ]; then
        tell_progress &
        telling=$!
    fi
    failed=
    (cd "$here/crates/$crate" && rt run "$@" >"$log" 2>&1) || [ -x "$binary" ] || failed=yes
    if [ -n "$telling" ]; then
        kill "$telling" 2>/dev/null || true
        wait "$telling" 2>/dev/null || true
        telling=
        printf '\r\033[K' >&2
    fi
    if [ -n "$failed" ]; then
        tail -n 20 "$log" >&2
        stops "$crate could not be proved and built: the log is $log"
    fi
    rm -f "$log"
}
# On a terminal: how many crates are done, which one it is at, and since when, each second, and how long the others will take
# if each takes as long as those before it.
tell_progress() {
    # (the crates below, by the list of crates, and this one)
    of=$(awk -v root="$crate" '!/^#/ && /:/ { split($0, part, ":"); split(part[1], name, " "); needs[name[1]] = part[2] }
        function visit(one, i, many, list) {
            if ((one in seen) || !(one in needs)) return
            seen[one] = 1; count++
            many = split(needs[one], list, " ")
            for (i = 1; i <= many; i++) visit(list[i])
        }
        END { visit(root); print count + 0 }' "$here/crates.txt")
    from=$(date +%s) before=
    while kill -0 $$ 2>/dev/null; do
        at=$(sed -n 's/^crate \([a-z_]*\): .*$/\1/p' "$log" | tail -n 1)
        [ "$at" = "$before" ] || { before=$at begun=$(date +%H:%M); }
        done_now=$(grep -c '^logic=proved' "$log") || true
        left=
        [ "$done_now" = 0 ] || left="; about $(((of - done_now) * ($(date +%s) - from) / done_now / 60 + 1)) min left"
        printf '\r\033[K%s of %s crates: %s, begun %s%s' "$done_now" "$of" "${at:-reading}" "${begun:-$(date +%H:%M)}" "$left" >&2
        sleep 1
    done
}
# Whether the record of $binary fits, or it is installed as not proved: then $proof is empty.
compare_record() {
    said=$(sed -n 's/^sha256 //p' "$binary.record" 2>/dev/null) || said=
    if [ -n "$said" ] && [ "$said" = "$(sha256sum <"$binary" | cut -c 1-64)" ]; then
        proof=$binary.record
    elif [ "${UNPROVED:-}" = yes ]; then
        proof=
    else
        stops "$binary has no record of its proof: .ci/run writes one, and UNPROVED=yes installs it as not proved"
    fi
}

file() { install -D -m 644 "$1" "$2"; }

# The program, and each of its names, which are links to it; then the scripts.
libexec=$PREFIX/libexec/coefhird
filled() { # mode, file, where
    mkdir -p "$(dirname "$3")"
    sed -e "s|@LIBEXEC@|$libexec|; s|@BINDIR@|$PREFIX/bin|; s|@SBINDIR@|$PREFIX/sbin|" "$2" >"$3.new"
    chmod "$1" "$3.new"
    mv -f "$3.new" "$3"
}
for crate in $crates; do
    binary_of "$crate" "$@"
    compare_record
    [ "${BUILD_ONLY:-}" != yes ] || exit 0
    program=$to/libexec/coefhird/$crate
    install -D -m 755 "$binary" "$program.new"
    mv -f "$program.new" "$program"
    if [ -n "$proof" ]; then file "$proof" "$program.built"; else rm -f "$program.built"; fi
done
# What install.sh put there before: a link of each name to one of several programs, and parts of a script.
# shellcheck disable=SC2046
(cd "$to/libexec/coefhird" && rm -f program help hints account_tool check_tool cron_tool post_tool $(commands 'where != "libexec"'))
mkdir -p "$to/bin" "$to/sbin"
for tool in $(commands 'what != "script"'); do ln -sfn "../libexec/coefhird/$(commands "name == \"$tool\"" what)" "$to/bin/$tool"; done
for script in $(commands 'what == "script"'); do
    case $(commands "name == \"$script\"" where) in libexec) place=$to/libexec/coefhird ;; *) place=$to/bin ;; esac
    filled 755 "$here/packaging/scripts/$script" "$place/$script"
done
called=$(commands 'where != "libexec"')
for tool in $(commands 'where == "sbin"'); do ln -sfn "../bin/$tool" "$to/sbin/$tool"; done

for page in "$here"/man/*.[158]; do
    file "$page" "$to/share/man/man${page##*.}/$(basename "$page")"
done
for name in $(commands 'page != "-" && page !~ "^" name "[.]"'); do
    page=$(commands "name == \"$name\"" page)
    ln -sf "$page" "$to/share/man/man${page##*.}/$name.${page##*.}"
done
ln -sf at.allow.5 "$to/share/man/man5/at.deny.5"

file "$here/packaging/completions/at.bash" "$to/share/bash-completion/completions/at"
for tool in $called; do [ "$tool" = at ] || ln -sf at "$to/share/bash-completion/completions/$tool"; done
file "$here/packaging/completions/_at" "$to/share/zsh/site-functions/_at"
for tool in $called; do
    file "$here/packaging/completions/at.fish" "$to/share/fish/vendor_completions.d/$tool.fish"
done

# How long outputs stay, and the units. That of the machine is not for a home folder.
unit() {
    mkdir -p "$(dirname "$2")"
    sed "s|@SBINDIR@|$PREFIX/sbin|; s|@LIBEXEC@|$libexec|" "$1" >"$2"
    chmod 644 "$2"
}
file "$here/packaging/systemd/coefhird-user.tmpfiles" "$to/share/user-tmpfiles.d/coefhird.conf"
units() { # which begin so, and where to
    for source in "$here/packaging/systemd/$1"*.service "$here/packaging/systemd/$1"*.path "$here/packaging/systemd/$1"*.timer; do
        unit "$source" "$2/${source##*/"$1"}"
    done
}
case $PREFIX in
    "${HOME:-/nowhere}"/*)
        units user- "$to/share/systemd/user"
        # (they are for one user, whoever that is)
        for source in "$here"/packaging/systemd/user-*; do
            sed -i '/^# It .*enabled/,/^ConditionUser/d' "$to/share/systemd/user/${source##*/user-}"
        done
        ;;
    *)
        units user- "$to/lib/systemd/user"
        units system- "$to/lib/systemd/system"
        unit "$here/packaging/systemd/system-run-coefhird-wake.mount" "$to/lib/systemd/system/run-coefhird-wake.mount"
        file "$here/packaging/systemd/coefhird.tmpfiles" "$to/lib/tmpfiles.d/coefhird.conf"
        file "$here/packaging/systemd/hardening.conf" "$to/share/doc/coefhird/hardening.conf"
        ;;
esac

[ -z "$DESTDIR" ] || exit 0
# What is said to be installed is on the disk: each file, and each directory that has new names.
find "$to" \( -type f -o -type d \) -cnewer "$begun" -exec sync -- {} +
echo "installed below $PREFIX: see $PREFIX/share/man/man1/at.1"
case $PREFIX in
    "${HOME:-/nowhere}"/*)
        # A manager of units finds that of a user below ~/.local, else by a link.
        [ "$PREFIX" = "$HOME/.local" ] || systemctl --user link "$to/share/systemd/user/atd.service" 2>/dev/null || true
        systemctl --user daemon-reload 2>/dev/null || true
        echo 'for your profile:'
        echo "  export PATH=$PREFIX/bin:\$PATH"
        echo 'to have atd run:'
        echo '  systemctl --user enable --now atd && loginctl enable-linger'
        echo 'or, where no systemd runs it:'
        echo '  setsid -f atd >/dev/null'
        ;;
    *)
        systemctl daemon-reload 2>/dev/null || true
        echo 'to have an atd run for root, and what the jobs and the crontab of each user need:'
        echo '  systemd-tmpfiles --create coefhird.conf'
        echo '  systemctl enable --now atd coefhird-users.path coefhird-boot.service coefhird-boot.timer coefhird-known.timer \
      coefhird-lists.path coefhird-lists.service'
        echo 'or, where no systemd runs it, as each user:'
        echo '  setsid -f atd >/dev/null'
        ;;
esac
