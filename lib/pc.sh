#!/bin/sh
# pc.sh PREFIX LIBDIR INCLUDEDIR: prints pdic.pc for pkg-config, for a library that is installed there. A folder below the prefix is named
# from ${prefix} on, so that the prefix can be moved.
set -eu
set -- "$1" "$2" "$3" $("$(dirname "$0")/version.sh")
below() {
    case $2 in
    "$1"/*) echo "\${prefix}${2#"$1"}" ;;
    *) echo "$2" ;;
    esac
}
cat <<END
prefix=$1
libdir=$(below "$1" "$2")
includedir=$(below "$1" "$3")

Name: pdic
Description: PDIC Hyper dictionaries, versions 4 and 5, in code order
Version: $4
Libs: -L\${libdir} -lpdic
Cflags: -I\${includedir}
END
