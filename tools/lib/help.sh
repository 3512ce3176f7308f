# What a script says of itself is the remark at its head: a script that reads this by '.' prints it, and ends, if it is asked for.
# shellcheck shell=sh
case ${1-} in
    --help | -h)
        sed -n '2,/^[^#]/s/^#$\|^# //p' "$0"
        exit 0
        ;;
esac
