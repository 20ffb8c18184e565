#!/bin/sh
# right.sh COPY: copies libpdic.a of the folder PDIC_LIB, else target/staticlib, with its calls renamed right_pdic_..., for wrong
# engines to be made around them.
set -eu
lib=${PDIC_LIB:-$(dirname "$0")/../target/staticlib}
renamed=
for call in check look_up walk create insert delete optimise; do
    renamed="$renamed --redefine-sym pdic_$call=right_pdic_$call"
done
objcopy $renamed "$lib/libpdic.a" "$1"
