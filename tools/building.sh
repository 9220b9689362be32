# Has the program answer before its proof where it isn't proved, or proves and builds it; the script rwsp reads this where
# it is in no package.
program="$root/crates/rwsp/out/rwsp"

# The program has the time at which its build began, so what was changed since then is newer.
is_built() {
    [ -x "$program" ] && [ -z "$(find "$root/crates" "$root/crates.txt" "$root/HANDLES" -name out -prune -o -type f -newer "$program" -print -quit)" ]
}

needs() {
    for tool; do
        command -v "$tool" >/dev/null && continue
        [ "$tool" != rt ] || tool="rt: install the Rattle kit (rattle-kit-13b or later) and put its folder bin on the PATH"
        give_up "the program is still to be proved, and there is no command $tool"
    done
}

# One run builds at a time; who waited finds it built. What was built before stays until there is a new program.
build() {
    needs rt python3 flock
    exec 9<"$root/crates.txt"
    attend flock 9
    is_built && return
    echo "rwsp: proving and building the program, which takes half an hour to an hour on four processors" >&2
    attend "$root/tools/prove_and_build" rwsp
    [ "$status" -eq 0 ] || give_up "the program could not be built"
}

if [ "$# ${1-}" = "1 --prove" ]; then
    is_built || build
    echo "rwsp: the program is proved and built" >&2
    finish 0
elif ! is_built; then
    needs rt python3
    program="$root/tools/answer_unproved"
    say "the program is not proved yet, so this answer is from before its proof, in a minute or two; to prove it: $0 --prove"
fi
