# What the measurements beside a real server share, for scripts that stand at the top of the repository: source it.
# $room is a folder of their own, $program the built program, $server a redis-server or valkey-server, or empty.
program=crates/redis_core_cli/out/redis_core_cli
[ -x "$program" ] || { echo "build it first: rt ci"; exit 2; }
server=$(command -v redis-server || command -v valkey-server || true)
server_pid=
room=$(mktemp -d)
trap '[ -z "$server_pid" ] || kill "$server_pid" 2> /dev/null; rm -rf "$room"' EXIT

# starts the server, where it isn't running
start_server() {
  [ -z "$server_pid" ] || return 0
  "$server" --port 0 --unixsocket "$room/socket" --save '' --appendonly no --dir "$room" > "$room/log" &
  server_pid=$!
  for _ in $(seq 50); do
    [ -S "$room/socket" ] && break
    sleep 0.1
  done
}
