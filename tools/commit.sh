# Read by tools/launch.sh and bin/build.

# commit_of TOP: puts the commit of a checkout into $commit, and nothing where there is none. It starts no process.
commit_of() {
    commit='' git=$1/.git
    if [ -f "$git" ]; then # that of a worktree names the folder
        read -r ref git <"$git"
        case $git in /*) ;; *) git=$1/$git ;; esac
    fi
    [ -r "$git/HEAD" ] || return 0
    read -r commit <"$git/HEAD"
    case $commit in 'ref: '*) ;; *) return 0 ;; esac
    ref=${commit#ref: } commit='' common=$git
    if [ -r "$git/commondir" ]; then
        read -r common <"$git/commondir"
        case $common in /*) ;; *) common=$git/$common ;; esac
    fi
    if [ -r "$common/$ref" ]; then
        read -r commit <"$common/$ref"
    elif [ -r "$common/packed-refs" ]; then
        while read -r id name; do
            [ "$name" != "$ref" ] || commit=$id
        done <"$common/packed-refs"
    fi
}
