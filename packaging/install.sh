#!/bin/sh
# SPDX-License-Identifier: ISC
# Copies the unpacked tree below a prefix, or removes it from there:
#
#     ./install.sh [PREFIX]
#     ./install.sh --uninstall [PREFIX]
#
# The prefix is an absolute path, by default /usr/local; DESTDIR is put before it. A tree for
# another kind of processor than this machine's is only put below a DESTDIR.
set -eu
processor=@processor@
action=install
case ${1:-} in
--help | -h)
    sed -n '3,/^set /{ s/^# \{0,1\}//p; }' "$0"
    exit
    ;;
esac
if [ "${1:-}" = --uninstall ]; then
    action=uninstall
    shift
fi
prefix=${1:-/usr/local}
case $prefix in
/*) ;;
*)
    echo "install.sh: $prefix is no absolute path" >&2
    exit 2
    ;;
esac
root=${DESTDIR:-}$prefix
CDPATH='' cd "$(dirname "$0")"

# Refuses a processor that can't run the library.
test_processor() {
    if [ "$(uname -m)" != $processor ]; then
        [ -z "${DESTDIR:-}" ] || return 0
        echo "install.sh: the library is for $processor, and not for $(uname -m)" >&2
        exit 1
    fi
    [ $processor = x86_64 ] || return 0
    for feature in pni ssse3 cx16 sse4_1 sse4_2 popcnt lahf_lm; do
        if ! grep -qw "$feature" /proc/cpuinfo; then
            echo "install.sh: this processor is older than x86-64-v2 (it lacks $feature)" >&2
            exit 1
        fi
    done
}

# All may read what is installed, whatever the umask is, and was where the tree was unpacked. The
# folders that are there stay as they are.
install() {
    test_processor
    umask 022
    mkdir -p "$root"
    find include lib share -type d | while IFS= read -r folder; do
        [ -d "$root/$folder" ] || mkdir "$root/$folder"
    done
    find include lib share ! -type d | while IFS= read -r file; do
        rm -f "$root/$file"
        cp -P "$file" "$root/$file"
        [ -h "$root/$file" ] || chmod u=rwX,go=rX "$root/$file"
    done
    echo "libyezdopin is installed below $root"
}

uninstall() {
    find include lib share ! -type d | while IFS= read -r file; do
        rm -f "$root/$file"
    done
    # The folders that are empty now, but for those that every system has.
    find include lib share -depth -type d | while IFS= read -r folder; do
        case $prefix:$folder in
        /usr:* | /usr/local:include | /usr/local:lib | /usr/local:share | /usr/local:share/man) ;;
        *) rmdir "$root/$folder" 2>/dev/null || true ;;
        esac
    done
    case $prefix in
    /usr | /usr/local) ;;
    *) rmdir "$root" 2>/dev/null || true ;;
    esac
    echo "libyezdopin is removed from $root"
}

$action
# So that the system finds the shared library.
if [ -z "${DESTDIR:-}" ] && [ "$(id -u)" = 0 ] && command -v ldconfig >/dev/null; then
    ldconfig
fi
