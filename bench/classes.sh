#!/bin/sh
# Times how labels become classes: 65,536 labels in a store of as many cells, by one thread and by four, which intern them all, first
# into the empty store and then again. `made` is the time to make the labels alone.
bench=$("$(dirname "$0")/build" classes) || exit
"$bench" time
