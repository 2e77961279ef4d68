# A proved program with an exit status: 0 listed, 1 refused, 2 wrong usage, or not run or not written. The program itself has
# none of its own. It is asked for behind lines that set `name`, `program`, its path, and `version`.

case $name in
pcflist) lists="the structures of the plain PCF message on standard input: depth, place, type, parameter and length of each" ;;
pcflist_embedded) lists="the structures of the embedded PCF message on standard input: depth, place, type, parameter and length of each" ;;
pcfhops) lists="the Activity groups of the plain trace-route message on standard input: number, place, length and application of each" ;;
esac
usage="usage: $name < MESSAGE"
case $#${1-} in
0) ;;
1--help)
    echo "$usage"
    echo "Lists $lists."
    echo "A message that is not sound gives one line, 'refused', with the refusal's number and place."
    echo "Exit status: 0 listed, 1 refused, 2 wrong usage, or the listing could not be made or written."
    exit 0
    ;;
1--version)
    echo "$name $version"
    exit 0
    ;;
*)
    echo "$usage" >&2
    exit 2
    ;;
esac

# a word behind the listing keeps its last line end, and is missing if the program failed
listing=$("$program" && echo .) || exit 2
if ! printf %s "${listing%.}" 2>/dev/null; then
    echo "$name: the listing could not be written" >&2
    exit 2
fi
case $listing in
refused*) exit 1 ;;
.) exit 2 ;;
esac
exit 0
