#!/bin/sh
# Installs the programs, man pages and units of this folder, or removes them.
#
# usage: install.sh [--remove] [PREFIX]    PREFIX is /usr/local by default
#
# With systemd, the units rtr-cache.service and rtr-cache.socket go to /etc/systemd/system, and
# their options to /etc/default/rtr-cache, unless that exists. Nothing is started: systemctl enable
# --now rtr-cache.socket rtr-cache.service does that.
set -eu
here=$(cd "$(dirname "$0")" && pwd)
remove=""
if [ "${1:-}" = --remove ]; then remove=yes; shift; fi
case ${1:-} in -*) sed -n '/^# usage/s/^# //p' "$0" >&2; exit 2 ;; esac
prefix=${1:-/usr/local}
units=/etc/systemd/system options=/etc/default/rtr-cache

# Each file below bin and share.
files() {
    cd "$here"
    find bin share -type f
}

if [ -n "$remove" ]; then
    if [ -d /run/systemd/system ] && [ -e "$units/rtr-cache.service" ]; then
        systemctl disable --now rtr-cache.socket rtr-cache.service
    fi
    files | while read -r file; do rm -f "$prefix/$file"; done
    rmdir "$prefix/share/doc/fishreef" 2> /dev/null || true
    rm -f "$units"/rtr-cache.service "$units"/rtr-cache.socket
    echo "removed; $options and /var/lib/rtr-cache stay"
    exit
fi
files | while read -r file; do
    mode=644
    case $file in bin/*) mode=755 ;; esac
    install -D -m "$mode" "$here/$file" "$prefix/$file"
done
if [ -d /etc/systemd ]; then
    mkdir -p "$units"
    sed "s|/usr/bin/|$prefix/bin/|" "$here/units/rtr-cache.service" > "$units/rtr-cache.service"
    install -m 644 "$here/units/rtr-cache.socket" "$units"
    [ -e "$options" ] || install -D -m 644 "$here/units/rtr-cache" "$options"
    if [ -d /run/systemd/system ]; then systemctl daemon-reload; fi
fi
echo "installed in $prefix; man rtr-cache and $prefix/share/doc/fishreef/OPERATORS.md go on"
