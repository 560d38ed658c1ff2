cd "$1" || exit
export HOME="$1" SHELL="$2" PATH="{path}"
exec "$2" -c "$SSH_ORIGINAL_COMMAND"
