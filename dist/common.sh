# Which files a build of the part $name reads, the sum over them, and whether what dist/ holds of it is whole.
# Read by dist/run.sh and by the scripts here and in c/, with the checkout's folder in $top and a name of $parts in $name.
#
# The sum is over the part's crate and all below it in crates.txt: their lines of crates.txt, each file of their src/, specs/ and proofs/
# with its name, and the kit's one-line identity. Then come the files in $others, which the library and the wheel are made by and of.
# Other documents, must-fail edits, and what a program is run with don't count.
# A record (dist/NAME.SOURCES, crates/NAME/out/NAME.sources beside a program, and build/libkcore.SOURCES beside the library) has the lines
#     kit WHAT-RT-VERSION-SAYS
#     sources SUM
# and then what was built from them: `program SUM`, or `libkcore.so SUM` and `libkcore.a SUM`, or `wheel SUM`; `made` says with which tools.

programs="kcore cores"
parts="$programs libkcore wheel"
of_library="c/build.sh include/kcore.h"
of_package="python/kcore python/building pyproject.toml docs/PYTHON.md"
usage="usage: kcore [--workers W] [--show cores|summary|each] [--level K] [--gen NUMBER] [--start buckets|hindex]"

# Takes a name of $parts for the one that is spoken of from here on. With the word $trial a program ends well on an empty input.
# speak_of NAME
speak_of() {
    name=$1
    sources=$name.SOURCES
    top_crate=$name
    others=
    trial=
    packed=$name-x86_64-linux.gz
    unpacked=$name-x86_64-linux
    case $name in
        cores) trial=numbers ;;
        libkcore) top_crate=kc_c others=$of_library packed= unpacked= ;;
        wheel) top_crate=kc_c others="$of_library $of_package" packed= unpacked= ;;
    esac
}
speak_of "${name:-kcore}"

# Prints the lines of crates.txt for the part's crate and all that it stands on, without comments.
rows_of_part() {
    awk -v program="$top_crate" '
        {
            sub(/#.*/, "")
            at = index($0, ":")
            if (split(at ? substr($0, 1, at - 1) : $0, words, " ") == 0) next
            row[words[1]] = $0
            uses[words[1]] = at ? substr($0, at + 1) : ""
        }
        END {
            found[count = 1] = program
            for (i = 1; i <= count; i++) {
                if (!(found[i] in row) || found[i] in told) continue
                told[found[i]] = 1
                print row[found[i]]
                gsub(/,/, " ", uses[found[i]])
                many = split(uses[found[i]], below, " ")
                for (j = 1; j <= many; j++) found[++count] = below[j]
            }
        }' "$top/crates.txt" | LC_ALL=C sort
}

# Prints the names of those crates.
crates_of_part() {
    rows_of_part | sed 's/^[[:blank:]]*//; s/[[:blank:]:].*//'
}

# Prints the folders of these crates that a build reads, as paths below crates/.
# folders_of CRATE..
folders_of() {
    for crate in "$@"; do
        for part in src specs proofs; do
            if [ -d "$top/crates/$crate/$part" ]; then echo "$crate/$part"; fi
        done
    done
}

# Prints the sum of a file.
# sum_of FILE
sum_of() {
    sha256sum < "$1" | cut -c 1-64
}

# Prints the sum over what a build with this kit reads.
# sum_of_sources KIT
sum_of_sources() {
    {
        echo "$1"
        rows_of_part
        (cd "$top/crates" && find $(folders_of $(crates_of_part)) -type f -print0 | LC_ALL=C sort -z | xargs -0 sha256sum)
        if [ -n "$others" ]; then
            (cd "$top" && find $others -name __pycache__ -prune -o -type f -print0 | LC_ALL=C sort -z | xargs -0 sha256sum)
        fi
    } | sha256sum | cut -c 1-64
}

# Prints what stands after a word of a record.
# value RECORD WORD
value() {
    sed -n "s/^$2 //p" "$1"
}

# Copies files and folders of the checkout to the same places of another folder.
# copy_files TO FILE..
copy_files() {
    to=$1
    shift
    for file in "$@"; do
        mkdir -p "$to/$(dirname "$file")" && cp -R "$top/$file" "$to/$file" || return 1
    done
}

# Copies what a build of the part reads to a new folder, as a checkout of that part alone.
# copy_sources TO
copy_sources() {
    mkdir -p "$1/.git"
    copy_files "$1" HANDLES dist/common.sh $others $(folders_of $(crates_of_part) | sed 's|^|crates/|')
    rows_of_part > "$1/crates.txt"
}

# Writes a record of a program for these sources.
# write_record KIT SOURCES-SUM PROGRAM TO
write_record() {
    printf 'kit %s\nsources %s\nprogram %s\n' "$1" "$2" "$(sum_of "$3")" > "$4"
}

# Whether a record is of these sources.
# fits RECORD
fits() {
    [ -r "$1" ] && [ "$(sum_of_sources "$(value "$1" kit)")" = "$(value "$1" sources)" ]
}

# Whether anything that the sum is over was changed, added or removed after a file was written. It goes by the time of change, which no
# copy can set back.
# is_changed_since FILE
is_changed_since() (
    cd "$top/crates" || return 0
    crates=$(crates_of_part)
    [ -n "$(find ../crates.txt $crates -maxdepth 0 -cnewer "$1" -print -quit; find $(folders_of $crates) -cnewer "$1" -print -quit)" ]
)

# Whether an option of kcore takes this value.
# takes OPTION VALUE
takes() {
    case $1=$2 in
        --show=cores | --show=summary | --show=each | --start=buckets | --start=hindex) return 0 ;;
        --show=* | --start=*) return 1 ;;
    esac
    case $2 in '' | *[!0-9]* | ???????????*) return 1 ;; esac
    [ "$2" -le 4294967295 ] || return 1
    [ "$1" != --workers ] || { [ "$2" -ge 1 ] && [ "$2" -le 64 ]; }
}

# Whether the program takes these words, as far as is known before it is there: kcore takes each of its five options at most once, each with
# its value, and then at most the word `--`; of cores nothing is known. Asked only where a build is due, so that nobody waits for it to
# learn of a wrong word. The program itself judges its words anew.
# are_right [WORD..]
are_right() {
    [ "$name" = kcore ] || return 0
    given=
    while [ $# -gt 0 ]; do
        case $1 in
            --) [ $# = 1 ]; return ;;
            --workers=* | --show=* | --level=* | --gen=* | --start=*)
                option=${1%%=*}
                value=${1#*=}
                ;;
            --workers | --show | --level | --gen | --start)
                [ $# -gt 1 ] || return 1
                option=$1
                value=$2
                shift
                ;;
            *) return 1 ;;
        esac
        shift
        case $given in *" $option "*) return 1 ;; esac
        given="$given $option "
        takes "$option" "$value" || return 1
    done
}

# Prints the sum that dist/SHA256SUMS has for a name.
# sum_in NAME
sum_in() {
    awk -v name="$1" '$2 == name { print $1 }' "$top/dist/SHA256SUMS"
}

# Whether files of dist are there and are what SHA256SUMS says; else says in $why what is not.
# are_whole FILE..
are_whole() {
    for file in SHA256SUMS "$@"; do
        if [ ! -r "$top/dist/$file" ]; then
            why="there is no file dist/$file"
            return 1
        fi
    done
    for file in "$@"; do
        if [ "$(sum_of "$top/dist/$file")" != "$(sum_in "$file")" ]; then
            why="dist/$file is damaged, as its sum is not that of dist/SHA256SUMS"
            return 1
        fi
    done
}

# Unpacks a packed file, if it and the record are what their sums say; else says in $why what is not. WORD is its word in the record.
# unpack_file PACKED UNPACKED WORD TO
unpack_file() {
    are_whole "$sources" "$1" || return 1
    if ! gzip -dc "$top/dist/$1" > "$4" 2> /dev/null; then
        why="dist/$1 can't be unpacked"
        return 1
    fi
    sum=$(sum_of "$4")
    if [ "$sum" != "$(sum_in "$2")" ] || [ "$sum" != "$(value "$top/dist/$sources" "$3")" ]; then
        why="dist/$1 holds another $3 than dist/SHA256SUMS and dist/$sources say"
        return 1
    fi
}

# Unpacks the packed program.
# unpack TO
unpack() {
    unpack_file "$packed" "$unpacked" program "$1" && chmod 755 "$1"
}

# Prints the name of the packed libkcore.so or libkcore.a.
# packed_library FILE
packed_library() {
    echo "libkcore-x86_64-linux.${1##*.}.gz"
}

# Unpacks libkcore.so, libkcore.a and their record into a folder. Spoken of is libkcore.
# unpack_library FOLDER
unpack_library() {
    for library in libkcore.so libkcore.a; do
        file=$(packed_library "$library")
        unpack_file "$file" "${file%.gz}" "$library" "$1/$library" || return 1
        chmod 644 "$1/$library"
    done
    cp "$top/dist/$sources" "$1/$sources"
    name_for_loader "$1"
}

# Gives libkcore.so in a folder its second name, by which the loader looks for it. No symbolic link: rt ci stops at one in the checkout.
# name_for_loader FOLDER
name_for_loader() {
    ln -f "$1/libkcore.so" "$1/libkcore.so.0" 2> /dev/null || cp "$1/libkcore.so" "$1/libkcore.so.0"
}

# Whether a folder has libkcore.so and libkcore.a of these sources, by the record beside them. Spoken of is libkcore.
# has_library FOLDER
has_library() {
    for library in libkcore.so libkcore.a; do
        [ -r "$1/$library" ] && [ "$(sum_of "$1/$library")" = "$(value "$1/$sources" "$library" 2> /dev/null)" ] || return 1
    done
    fits "$1/$sources"
}

# Prints the name of the wheel in dist, if the sums have one.
name_of_wheel() {
    awk '$2 ~ /[.]whl$/ { print $2 }' "$top/dist/SHA256SUMS"
}

# Whether the wheel in dist is what the sums say, and holds the packed library; else says in $why what is not so. Spoken of is the wheel.
is_wheel_whole() {
    are_whole "$sources" || return 1
    wheel=$(name_of_wheel)
    if [ -z "$wheel" ]; then
        why="dist/SHA256SUMS has no wheel"
        return 1
    fi
    are_whole "$wheel" || return 1
    for file in "$top"/dist/*.whl; do
        if [ "$file" != "$top/dist/$wheel" ]; then
            why="dist has $(basename "$file") beside $wheel, so that pip would be given both: remove it"
            return 1
        fi
    done
    if [ "$(sum_of "$top/dist/$wheel")" != "$(value "$top/dist/$sources" wheel)" ]; then
        why="dist/$wheel is another wheel than dist/$sources says"
        return 1
    fi
    if [ "$(value "$top/dist/$sources" libkcore.so)" != "$(sum_in libkcore-x86_64-linux.so)" ]; then
        why="dist/$wheel holds another library than the packed one"
        return 1
    fi
}
