#!/bin/sh
# Stands for sudo where nvme-model --root has made the command root: it does what sudo 1.9 does with Debian's settings,
# and can't name another user. (Names that begin with _ are its own, because -E passes on those of the environment.)
PATH=/usr/local/sbin:/usr/local/bin:/usr/sbin:/usr/bin:/sbin:/bin
[ -e /usr/bin/sudo ] || PATH=$PATH:/sys/fs/model/bin
_kept='COLORS COLORTERM DISPLAY DPKG_COLORS HOSTNAME KRB5CCNAME LANG LANGUAGE LC_ADDRESS LC_ALL LC_COLLATE LC_CTYPE
    LC_IDENTIFICATION LC_MEASUREMENT LC_MESSAGES LC_MONETARY LC_NAME LC_NUMERIC LC_PAPER LC_TELEPHONE LC_TIME LINGUAS
    LS_COLORS TERM TZ XAUTHORITY XAUTHORIZATION XDG_CURRENT_DESKTOP BLKID_FILE SYSTEMD_DEVICE_VERIFY_SYSFS'

_stop() {
    echo "sudo: $1" >&2
    exit 1
}

# Prints where a command is, or nothing. (env would take a file with = in its name for a variable.)
_find() {
    case $1 in *=*) return ;; */*) set -- "$1" "" ;; *) set -- "/$1" "$PATH" ;; esac
    IFS=:
    for _folder in ${2:-''}; do
        [ ! -f "$_folder$1" ] || [ ! -x "$_folder$1" ] || { echo "$_folder$1" && return; }
    done
}

# ---- the options; what sets a variable goes behind all other words
_all='' _home='' _shell='' _alone='' _list='' _set=0
while [ "$_set" -lt $# ]; do
    _user=root
    case $1 in
        --) shift && break ;;
        -u | -g | --user | --group) _user=${2-} && shift ;;
        -u?* | -g?*) _user=${1#-?} ;;
        --user=* | --group=*) _user=${1#*=} ;;
        -p | --prompt) shift ;;
        -i | --login) _shell=login ;;
        -s | --shell) _shell=own ;;
        -k | --reset-timestamp) _alone=${_alone:-maybe} ;;
        -[Kv] | --remove-timestamp | --validate) _alone=always ;;
        -l | --list) _alone=maybe _list=yes ;;
        -E | --preserve-env) _all=yes ;;
        --preserve-env=*) _kept="$_kept $(echo "${1#*=}" | tr , ' ')" ;;
        -H | --set-home) _home=yes ;;
        -[ABPSn] | --askpass | --bell | --preserve-groups | --stdin | --non-interactive | --prompt=*) ;;
        -[ABEHKPSiklnsv]?*)
            _rest=${1#??} _first=${1%"${1#??}"}
            shift && set -- "$_first" "-$_rest" "$@"
            continue
            ;;
        -*) _stop "$1: there is no such option here" ;;
        [A-Za-z_]*=*) set -- "$@" "$1" && _set=$((_set + 1)) ;;
        *) break ;;
    esac
    case $_user in root | 0 | '#0') ;; *) _stop "$_user: there is no user or group but root here" ;; esac
    shift
done
_words=$(($# - _set))
[ "$_words" -gt 0 ] || [ -z "$_alone" ] || exit 0
[ "$_words" -gt 0 ] || [ "$_shell" ] || _stop 'there is no command'
[ "$_alone" != always ] || _stop 'no command may follow such an option'

# ---- the command, or a shell, for which each word is a word again
while IFS=: read -r _ _ _user _ _ _folder _login && [ "$_user" != 0 ]; do :; done < /etc/passwd
if [ "$_shell" ]; then
    [ "$_shell" = own ] && [ "${SHELL-}" ] && _login=$SHELL
    _line=$(awk -v set="$_set" 'BEGIN { for (at = 1; at < ARGC - set; at++) {
        gsub(/[^[:alnum:]_$-]/, "\\\\&", ARGV[at]); printf "%s ", ARGV[at] } }' "$@")
    shift "$_words"
    set -- "$@" "$_login"
    if [ "$_shell" = login ]; then
        set -- "$@" -l
        cd "$_folder" || :
    fi
    [ "$_words" -eq 0 ] || set -- "$@" -c "$_line"
else
    _file=$(_find "$1")
    [ "$_file" ] || _stop "$1: command not found"
    [ -z "$_list" ] || { echo "$_file" && exit; }
    # (a path that is set is for the command alone)
    [ "$_set" -eq 0 ] || { shift && set -- "$_file" "$@"; }
    while [ "$_set" -gt 0 ] && [ "$_words" -gt 0 ]; do
        set -- "$@" "$1" && shift && _words=$((_words - 1))
    done
fi

# ---- the environment
set -- "PATH=$PATH" LOGNAME=root USER=root SUDO_USER=root SUDO_UID=0 SUDO_GID=0 "$@"
[ -z "$_home" ] || set -- "HOME=$_folder" "$@"
[ -z "$_all" ] || exec env "$@"
for _name in $_kept; do
    case $_name in *[!A-Za-z0-9_]* | [0-9]*) continue ;; esac
    eval "[ -z \"\${$_name+set}\" ] || set -- \"$_name=\$$_name\" \"\$@\""
done
exec env -i "HOME=$_folder" MAIL=/var/mail/root "SHELL=$_login" "$@"
