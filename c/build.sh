#!/bin/sh
# Makes libkcore.a and libkcore.so in build/ from the proved crate kc_c, and the record of the sources that they were made from, by which
# dist/library.sh knows them. Needs `rt` on the path, cc and ar. Prints the folder that they lie in.
set -eu
top=$(cd "$(dirname "$0")/.." && pwd)
build=$top/build
. "$top/dist/common.sh"
speak_of libkcore
# The kit's allocator, which calls the program's malloc, realloc and free, lies beside `rt`.
allocator=$(dirname "$(dirname "$(readlink -f "$(command -v rt)")")")/c/liblibc_c.a

kit=$(rt version < /dev/null)
sum=$(sum_of_sources "$kit")
(cd "$top/crates/kc_c" && rt lib < /dev/null) > /dev/null
mkdir -p "$build"
# The archive is made by names without a folder, and the library of it, so that no name of a folder comes into them.
cd "$build"
rm -f libkcore.a libkcore.so "$sources"
cp "$top/crates/kc_c/out/libkc_c.a" "$allocator" .
ar -M << 'END'
create libkcore.a
addlib libkc_c.a
addlib liblibc_c.a
save
end
END
rm libkc_c.a liblibc_c.a
cat > exports.map << 'END'
KCORE {
    global: kcore_version; kcore_core_numbers; kcore_degeneracy_order; kcore_check; kcore_k_core;
        kcore_core_numbers_csr; kcore_degeneracy_order_csr; kcore_check_csr; kcore_k_core_csr;
        kcore_tally; kcore_verdict; kcore_h_index_round;
        kcore_keeper_size; kcore_keeper_align; kcore_keeper_open; kcore_keeper_update; kcore_keeper_apply; kcore_keeper_grow;
        kcore_keeper_changes; kcore_keeper_members; kcore_keeper_order;
        kcore_keeper_core_numbers; kcore_keeper_core; kcore_keeper_before; kcore_keeper_end;
    local: *;
};
END
${CC:-cc} -shared -Wl,-soname,libkcore.so.0 -Wl,-z,text,-z,defs -Wl,--version-script=exports.map -Wl,--whole-archive libkcore.a \
    -Wl,--no-whole-archive -o libkcore.so
name_for_loader .
if [ "$sum" != "$(sum_of_sources "$kit")" ]; then
    echo "c/build.sh: a source was changed while the library was built: call it again" >&2
    exit 1
fi
printf 'kit %s\nsources %s\nmade %s\nlibkcore.so %s\nlibkcore.a %s\n' "$kit" "$sum" "$(${CC:-cc} --version | head -n 1)" \
    "$(sum_of libkcore.so)" "$(sum_of libkcore.a)" > "$sources"
echo "$build"
