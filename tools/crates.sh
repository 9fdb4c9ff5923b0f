# For the scripts of this folder, which read this file with the top of the repository in $top.

# CRATE..: the crates of this repository that these use by crates.txt, lowest first, and then they.
crates_of() {
    awk -v wanted="$*" '
        function visit(name, names, count, i) {
            if (name in seen || !(name in uses)) return
            seen[name] = 1
            count = split(uses[name], names, /[ \t,]+/)
            for (i = 1; i <= count; i++) visit(names[i])
            print name
        }
        { sub(/#.*/, ""); split($0, halves, ":"); split(halves[1], names, " ") }
        names[1] != "" { uses[names[1]] = halves[2] }
        END { count = split(wanted, all, " "); for (i = 1; i <= count; i++) visit(all[i]) }
    ' "$top/crates.txt"
}

# CRATE..: one SHA-256 over crates.txt and all that these crates are built from: the names and the
# contents of their sources, definitions and proofs.
sum_of() {
    (
        cd "$top" || exit 1
        for crate in "$@"; do
            for folder in src specs proofs; do
                [ ! -d "crates/$crate/$folder" ] || echo "crates/$crate/$folder"
            done
        done | xargs sh -c 'find "$@" -type f -print0' find |
            { printf 'crates.txt\0' && cat; } | LC_ALL=C sort -z |
            xargs -0 sha256sum | sha256sum | cut -d ' ' -f 1
    )
}

# The crates of the released programs.
released="vk_replay explain emit places"

# What the released programs are built from, as one sum.
sources_sum() {
    sum_of $(crates_of $released)
}

# What the C library is built from, as one sum.
library_sum() {
    sum_of $(crates_of zorthewin_c)
}

# FOLDER WORD FILE..: whether the folder has these files, made of the library's sources as they are: the
# line of its RELEASE that begins with the word has their sum.
has_made() (
    word=$2
    cd "$1" 2>/dev/null && shift 2 || exit 1
    for file; do
        [ -e "$file" ] || exit 1
    done
    grep -qsx "$word $(library_sum)" RELEASE
)
library_files="libzorthewin.a libzorthewin.so.0"
