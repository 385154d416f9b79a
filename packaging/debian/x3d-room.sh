#!/bin/sh
# Shows a shared world in browser windows: the door, or that of the named job or scene.
[ "$#" -gt 0 ] || set -- /usr/share/x3d-room/examples/rooms/door.job
exec python3 /usr/share/x3d-room/room/server.py "$@"
