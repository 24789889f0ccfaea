#!/bin/sh
# entrypoint.sh COMMAND [WORD]...   Waits for the database of ${APP_NAME}, and runs a command.
set -eu

name=${1:-serve}
[ "$#" -gt 0 ] && shift
seconds=${WAIT_SECONDS}
log="/var/log/$APP_NAME.$$"

say() {
  printf '%s [%s] %s\n' "$(date +%T)" "${APP_NAME}" "$*" >> "$log"
}

waits() {
  left=$seconds
  while ! nc -z "${DB_HOST}" 5432; do
    left=$((left - 1))
    [ $left -gt 0 ] || return 1
    sleep 1
  done
}

waits || { say "no database at ${DB_HOST} after $seconds s"; exit 69; }
for file in /etc/${APP_NAME}.d/*.env; do
  [ -r "$file" ] || continue
  say "reads ${file##*/} of `dirname "$file"`"
  # Names that begin with a dot, as \.old, aren't read; nor does \$file stand for one.
  . "$file"
done

case $name in
  serve) exec /usr/bin/$APP_NAME --listen "0.0.0.0:${APP_PORT}" "$@" ;;
  shell) exec /bin/sh -c "${2:-$SHELL} -i" ;;
  *) say "status $?, first word \"$1\""; exec "$name" "$@" ;;
esac
