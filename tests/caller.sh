# Runs a command like a caller that has folders open, next to a process of the same user without any rights:
# sh caller.sh FOLDER COMMAND..
where=$1
shift
caller=$$
if [ "$(id -u)" = 0 ]; then setpriv --bounding-set=-all --inh-caps=-all sleep 9999 & else sleep 9999 & fi
powerless=$!
export caller powerless
cd "$where" && exec 7< / 8< /dev
"$@"
status=$?
kill "$powerless"
exit "$status"
