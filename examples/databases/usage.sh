# Part of the scripts of this folder. It prints what is said at the head of a script where its first argument asks for that, or where arguments are
# missing, and ends the script.
#
#     . "$(dirname "$0")/usage.sh" COUNT "$@"         COUNT is how many arguments the script needs

usage() {
    sed -n -e '1d' -e '/^#/!q' -e 's/^# \{0,1\}//p' "$0"
}

case ${2-} in
-h | --help)
    usage
    exit 0
    ;;
esac
if [ $(($# - 1)) -lt "$1" ]; then
    usage >&2
    exit 2
fi
