#!/bin/sh
# A bwrap that first puts another file in a device's place.
mv /dev/open/node /dev/open/kept && mv /dev/open/other /dev/open/node
PATH=${PATH#*:} exec bwrap "$@"
