# Read by bin/spicyc and bin/spicy-driver, which set $program, $words and $top: runs the program, and has it built first where there is
# no build of this commit. With a build at hand it starts no other process. Without one, --help is answered here, and at once.

. "$top/tools/commit.sh"
commit_of "$top"
built_of=none
[ ! -r "$top/out/$program.commit" ] || read -r built_of <"$top/out/$program.commit"
if [ "$built_of" != "commit $commit" ] || [ ! -x "$top/out/$program" ]; then
    case ${1:-} in --help | -h)
        . "$top/tools/times.sh"
        cat <<END
usage: $program $words
There is no build of this commit yet. bin/build proves and builds the programs, which takes $build_takes, and so does
the first call of bin/$program. bin/try $program, with these words, compiles it without its proof, in $try_takes, and runs it.
README.md says what the words mean.
END
        exit 0
        ;;
    esac
    "$top/bin/build" --quiet "$program" </dev/null >&2 || exit 127
fi
exec "$top/out/$program" "$@"
