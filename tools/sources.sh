# The sum of all that the program is built from. Read by `prove` and `annodomini` at the top of the repository.
sources_sum() {
    {
        cat crates.txt
        find crates -name out -prune -o -type f \( -name '*.rt' -o -name '*.antt' \) -print0 | LC_ALL=C sort -z | xargs -0 sha256sum
        rt version
    } | sha256sum | cut -d' ' -f1
}
