#!/bin/sh
# @SAID@
exec /usr/bin/python3 -B @PREFIX@/share/tosculai/@SCRIPT@ "$@"
