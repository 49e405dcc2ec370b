#!/bin/sh
# SPDX-License-Identifier: ISC
# Makes FOLDER a kit of links, which builds static libraries as the kit of the command RT does, but
# keeps what its clang is given, and may change it:
#
#     kit.sh RT FOLDER PROGRAM [FLAG..]
#
# FOLDER/bin/rt is its command. Its clang compiles a library's module by the kit's arguments, and
# then FLAGs. With a PROGRAM, a command or '', it compiles what `PROGRAM MODULE CHANGED` writes to
# CHANGED, a text as MODULE is. What is proved, and how, is the kit's own.
#
# Of the last library FOLDER has `module.bc`, the module as the kit lowered it; `flags`, the
# arguments by which it was compiled, one a line, with `module.bc` as the module's name; and with a
# PROGRAM `module.ll`, the module's text, and `changed.ll`, which clang compiled in its place.
set -eu
rt=$(realpath "$(command -v "$1")") folder=$2 program=$3
shift 3
kit=${rt%/bin/rt}
test -x "$kit/toolchain/bin/clang" || { echo "kit.sh: $rt is no kit's rt" >&2; exit 1; }
rm -rf "$folder"
mkdir -p "$folder/bin" "$folder/toolchain/bin"
folder=$(cd "$folder" && pwd)
for of in '' /bin /toolchain /toolchain/bin; do
    for it in "$kit$of"/*; do
        test -e "$folder$of/${it##*/}" || ln -s "$it" "$folder$of"
    done
done
# rt takes the kit to be where its own file is.
for it in rt rtlib.py; do
    rm "$folder/bin/$it"
    cp "$kit/bin/$it" "$folder/bin"
done
rm "$folder/toolchain/bin/clang"
cat >"$folder/toolchain/bin/clang" <<END
#!/bin/sh
# Written by kit.sh.
set -eu
clang='$kit/toolchain/bin/clang' kept='$folder'
case " \$* " in
*' module.bc '*) ;;
# The text that the kit makes of an aarch64 module once it is optimised.
*' rewritten.ll '*) exec "\$clang" "\$@" $* ;;
*) exec "\$clang" "\$@" ;;
esac
cp module.bc "\$kept"
printf '%s\n' "\$@" $* >"\$kept/flags"
END
test -z "$program" || cat >>"$folder/toolchain/bin/clang" <<END
"\$clang" --no-default-config "\$(printf '%s\n' "\$@" | grep '^--target=')" -x ir module.bc \\
    -S -emit-llvm -O3 -Xclang -disable-llvm-passes -o "\$kept/module.ll"
rm -f "\$kept/changed.ll"
$program "\$kept/module.ll" "\$kept/changed.ll"
for it; do
    shift
    test "\$it" != module.bc || it=\$kept/changed.ll
    set -- "\$@" "\$it"
done
END
echo "exec \"\$clang\" \"\$@\" $*" >>"$folder/toolchain/bin/clang"
chmod +x "$folder/toolchain/bin/clang"
