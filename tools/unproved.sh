#!/bin/sh
# unproved.sh swsusp|swsusp_machine|swsusp_image FILE: builds the program without proving it, and leaves it as FILE.
#
# rt offers no unproved program that can be kept: `rt try` builds one, with checks that make it too slow for tests/, runs it and removes it. So this
# script links the module that `rt try` hands to its compiler to a place of its own while it exists, ends `rt try`, and compiles and links that
# module by the tools of the toolchain, which are beside the page that `rt doc` names.
set -eu
case ${1:-} in swsusp | swsusp_machine | swsusp_image) ;; *) set -- ;; esac
if [ $# -ne 2 ]; then
    sed -n '2s/^# //p' "$0" >&2
    exit 2
fi
command -v rt > /dev/null || { echo "unproved.sh: no rt: the toolchain isn't on the path" >&2; exit 1; }
kit=$(dirname "$(rt doc)")
crate=$(cd "$(dirname "$0")/../crates/$1" && pwd)
mkdir -p "$(dirname "$2")"
file=$(cd "$(dirname "$2")" && pwd)/$(basename "$2")
room=$(mktemp -d "$file.XXXXXX")
try=
trap 'trap "" HUP INT TERM; end_try; rm -rf "$room"' EXIT
trap 'exit 1' HUP INT TERM

# Ends rt and what it has started: rt leads a process group of its own, and the whole group is ended.
end_try() {
    [ -z "$try" ] || kill -- "-$try" 2> /dev/null || :
    try=
}

# Links the module of the whole program, the larger of two, once the compiler has begun to read it.
catch_module() {
    for module in "$room"/tmp/*/*/module.bc; do
        [ "$(find "$module" -size +1M 2> /dev/null)" ] && [ "$(find "$(dirname "$module")" -name '*.o*' 2> /dev/null)" ] || continue
        ln -f "$module" "$room/module.bc" 2> /dev/null && return
    done
    return 1
}

mkdir "$room/tmp"
cd "$crate"
TMPDIR=$room/tmp setsid rt try -- --help < /dev/null > "$room/log" 2>&1 &
try=$!
until catch_module; do
    kill -0 "$try" 2> /dev/null || { tail -n 20 "$room/log" >&2; echo "unproved.sh: rt try built no program" >&2; exit 1; }
    sleep 0.1
done
end_try
"$kit/toolchain/bin/clang" -O1 -c "$room/module.bc" -o "$room/module.o"
"$kit/bin/rattle-link" --target x86_64-unknown-linux-gnu --toolchain "$kit/toolchain" -o "$room/program" "$room/module.o" \
    "$kit/c/liblibc_c.a" "$kit/c/libos_c.a" 2> "$room/log" || { cat "$room/log" >&2; exit 1; }
mv -f "$room/program" "$file"
