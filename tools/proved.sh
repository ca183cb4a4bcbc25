# For bash scripts: which program was proved of the text that stands here.

# Prints a checksum of all that a proof of the program reads in the folder TOP: crates.txt, HANDLES,
# and each file in src/, specs/ and proofs/ of each crate. It looks at the bytes and not at the
# times, so a file that a checkout put back counts as the one it was.
text_sum() {
    local sum
    sum=$(
        set -o pipefail
        cd "$1" || exit
        find crates.txt HANDLES crates/*/src crates/*/specs crates/*/proofs -type f -print0 |
            LC_ALL=C sort -z | xargs -0 b2sum -l 256 | b2sum -l 256
    ) || return
    echo "${sum%% *}"
}

# Prints the path of the program that ./prove made of the text of the folder TOP as it stands now, and
# ends with status 1 where there is none. ./prove keeps each program under the checksum of its text,
# so one that was made of another text is not found.
proved_program() {
    local sum
    sum=$(text_sum "$1") || return
    [ -x "$1/proved/$sum/redpile" ] && echo "$1/proved/$sum/redpile"
}
