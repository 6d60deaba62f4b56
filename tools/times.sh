# Read by bin/build, bin/try and tools/launch.sh: how long building and trying take, as they say it before they begin, on four cores of a
# fast machine with nothing else running.
build_takes='39 minutes from nothing'
try_takes='two to four minutes'
