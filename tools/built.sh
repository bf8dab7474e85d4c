# What is built of the crates, and whether it is up to date, for the scripts that read this file with `.` and have set top, the root of the clone.
# rt builds in crates/NAME/out. Whether something that it built is still what the sources say is told by checksums alone, which stand in a stamp below target/.

# the library for C programs: tools/archive builds it and puts it here, where rt ci, which empties out/, leaves it
archive=$top/target/archive/libexports.a

# program_of NAME: the program, where rt ci and rt run leave it
program_of() {
    echo "$top/crates/$1/out/$1"
}

# stamp_file_of NAME: the stamp of one of the two listings, listing and named_listing, which ./list keeps
stamp_file_of() {
    echo "$top/target/list/${1%listing}stamp"
}

# crates_of NAME: the crates that it is made of, lowest first, and itself the last
crates_of() {
    awk -F: -v made="$1" '
        function visit(crate,    count, i, below) {
            if (!(crate in on) || crate in seen) return
            seen[crate]
            count = split(on[crate], below, " ")
            for (i = 1; i <= count; i++) visit(below[i])
            print crate
        }
        { sub(/#.*/, "") }
        NF == 2 { name = $1; sub(/ .*/, "", name); on[name] = $2 }
        END { visit(made) }' "$top/crates.txt"
}

# folders_of NAME: the list of crates and the folders, from the root, of all that it is made from
folders_of() {
    echo crates.txt
    crates_of "$1" | sed 's|.*|crates/&/src crates/&/specs crates/&/proofs|'
}

# sources_of NAME: one checksum of all files that it is made from
sources_of() (
    cd "$top"
    find $(folders_of "$1") -type f -exec sha256sum {} + 2> /dev/null | sort | sha256sum
)

# stamp_of FILE SOURCES: what a stamp says of a program or an archive that was made from sources with this checksum
stamp_of() {
    printf 'sources %s\nprogram %s\n' "$2" "$(sha256sum < "$1")"
}
