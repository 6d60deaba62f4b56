# Texts and times of the scripts beside it, which read this file. $program is what is timed, and $work a folder.

build() { # CRATE: the program, built where it is missing
    program=$top/crates/$1/out/$1
    [ -x "$program" ] || (cd "$top/crates/$1" && rt run <stdin >/dev/null 2>&1)
}
repeat() { # TEXT BYTES: the text, over and over, up to so many bytes in whole texts
    awk -v text="$1" -v bytes="$2" 'BEGIN { n = int(bytes / length(text)); for (i = 0; i < n; i++) printf "%s", text }'
}
row() { # NAME FILE [WORDS]: the seconds with these words, and what came out
    name=$1 file=$2
    shift 2
    start=$(date +%s.%N)
    said=$("$program" "$@" <"$file")
    end=$(date +%s.%N)
    printf '%-22s %9d bytes  %s s  %s\n' "$name" "$(wc -c <"$file")" "$(echo "$end $start" | awk '{ printf "%.3f", $1 - $2 }')" "$said"
}
used() { # RUNS FILE COMMAND..: the microseconds of the processor that the command takes with the file as its input, the best of so many runs
    python3 -c 'if True:
        import os, subprocess, sys
        least = None
        for _ in range(int(sys.argv[1])):
            with open(sys.argv[2], "rb") as file:
                run = subprocess.Popen(sys.argv[3:], stdin=file, stdout=subprocess.DEVNULL, stderr=subprocess.DEVNULL)
                taken = os.wait4(run.pid, 0)[2]
            seconds = taken.ru_utime + taken.ru_stime
            least = seconds if least is None else min(least, seconds)
        print(round(least * 1000000))
    ' "$@"
}
