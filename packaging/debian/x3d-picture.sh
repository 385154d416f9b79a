#!/bin/sh
# Draws a job or a scene as SVG: x3d-picture JOB [FILE]
PROGRAM=${PROGRAM:-/usr/bin/x3d_share} exec python3 /usr/share/x3d-room/scripts/picture "$@"
