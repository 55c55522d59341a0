#!/bin/bash
# Times the cycles of a loop and of straight code, half a million each.
exec "$(dirname "$0")/execute.sh" 1.2 loop straight
