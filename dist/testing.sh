# What dist/test.sh and dist/test_library.sh have in common: a room with tools, a copy of this checkout, and how a case is tried and told.
# Read by them, with the checkout's folder in $top and a name of $parts in $name.
room=$(mktemp -d) || exit 1
trap 'rm -rf "$room"' EXIT
chmod 755 "$room"
wrong=0
machine=
input=$top/graphs/karate.txt

# A folder of the tools of any Debian alone, and one for temporary files.
mkdir "$room/tools" "$room/kit" "$room/temporary"
chmod 1777 "$room/temporary"
for tool in sh dirname basename readlink awk sed sort find xargs sha256sum cut gzip chmod cp cmp mv rm ln mkdir mktemp touch uname cat tail grep \
    install env; do
    ln -s "$(command -v "$tool")" "$room/tools/$tool"
done

# The crates of all parts, since check.sh looks at each.
crates_of_parts() (
    for name in $parts; do
        speak_of "$name"
        crates_of_part
    done | LC_ALL=C sort -u
)

# A copy without what was built, and the one that the cases change.
mkdir "$room/first"
(cd "$top" && tar -cf - --no-wildcards-match-slash --exclude='crates/*/out' --exclude=__pycache__ $programs crates.txt HANDLES dist c \
    include examples/c $of_package $(crates_of_parts | sed 's|^|crates/|')) | (cd "$room/first" && tar -xf -)
clone="$room/a copy"
cp -R "$room/first" "$clone"

# Begins a case: gives these files and folders of the copy back as they were.
# begin TITLE FILE..
begin() {
    title=$1
    shift
    for part in "$@"; do
        rm -rf "${clone:?}/$part"
        cp -R "$room/first/$part" "$clone/$part"
    done
    rm -f "$room/calls"
    path=$room/tools
    is_wrong=
}

# Runs a command with the environment of a case; its streams are left in the room, and its status in $status.
try() {
    env -i PATH="$path" HOME="$room/temporary" TMPDIR="$room/temporary" ${machine:+"KCORE_MACHINE=$machine"} "$@" \
        < "$input" > "$room/out" 2> "$room/err"
    status=$?
    # What cores itself says of a run that is done is not looked at.
    sed -i '/^vertices [0-9]* edges [0-9]* top [0-9]*$/d' "$room/err"
}

# Notes what is not as it has to be.
want() {
    what=$1
    shift
    "$@" || is_wrong="$is_wrong; not so: $what"
}

# Runs a line of shell in a folder of the copy.
within() (
    cd "$clone/$1" && eval "$2"
)

says() {
    case $(cat "$room/err") in *"$1"*) [ "$(wc -l < "$room/err")" = 1 ] ;; *) return 1 ;; esac
}

is_quiet() {
    [ ! -s "$room/err" ]
}

# Runs a command as a user that may not write the copy.
as_nobody() {
    if [ "$(id -u)" = 0 ]; then
        cp "$(command -v setpriv)" "$room/tools/"
        try setpriv --reuid=65534 --regid=65534 --clear-groups "$@"
    else
        try "$@"
    fi
}

end() {
    if [ -n "$is_wrong" ]; then
        wrong=1
        echo "WRONG  $title$is_wrong"
        sed 's/^/           /' "$room/err"
    else
        echo "well   $title"
    fi
}
