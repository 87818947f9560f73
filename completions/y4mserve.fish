# Completion of y4mserve's words for fish. Put this file into ~/.config/fish/completions.

# The operations, each behind what stands before the last + of the word.
function __y4mserve_operations
    set -l before (string match -r '^.*\+' -- (commandline -ct))
    printf '%s\t%s\n' \
        "$before"invert 'each sample of Y, Cb and Cr becomes 255 - v' \
        "$before"thresh: 'thresh:T - Y becomes 255 from T on, else 0' \
        "$before"clamp: 'clamp:LO,HI - Y is moved into LO to HI' \
        "$before"hflip 'every plane is mirrored left to right' \
        "$before"vflip 'every plane is mirrored top to bottom' \
        "$before"crop: 'crop:X,Y,W,H - a rectangle of the picture' \
        "$before"blur: 'blur:R - the mean of the square of side 2R+1'
end

complete -c y4mserve -f
complete -c y4mserve -n __fish_use_subcommand -a filter -d 'Filters a stream from standard input to standard output'
complete -c y4mserve -n __fish_use_subcommand -a replay -d 'Runs a script on an account, or on a machine that serves streams'
complete -c y4mserve -n __fish_use_subcommand -a serve -d 'Filters many streams at once, which share some workers'
complete -c y4mserve -n __fish_use_subcommand -a help -d 'Prints the help of the program or of a command'
complete -c y4mserve -n __fish_use_subcommand -s V -l version -d 'Print the version'
complete -c y4mserve -s h -l help -d 'Print help'
complete -c y4mserve -n '__fish_seen_subcommand_from help' -a 'filter replay serve help'
complete -c y4mserve -n '__fish_seen_subcommand_from filter' -l band -x -a '2 4 8 16 32 64 128' -d 'Luma rows of a band, even, 2 to 128'
complete -c y4mserve -n '__fish_seen_subcommand_from filter' -l threads -x -a '1 2' -d 'Threads, 1 or 2'
complete -c y4mserve -n '__fish_seen_subcommand_from serve' -l workers -x -a '1 2 4 8 16' -d 'Threads that filter, 1 to 16'
complete -c y4mserve -n '__fish_seen_subcommand_from serve' -l band -x -a '2 4 8 16 32 64 128' -d 'Luma rows of a band, even, 2 to 128'
complete -c y4mserve -n '__fish_seen_subcommand_from serve' -l quantum -x -a '1 2 4 8 16 32 64' -d 'Most bands of a lease, 1 to 64'
complete -c y4mserve -n '__fish_seen_subcommand_from serve' -l journal -x -a '4096 65536 1048576' -d 'Most entries of a journal, 66 to 1048576'
complete -c y4mserve -n '__fish_seen_subcommand_from serve' -l control -r -F -d 'File of lines that ask for more streams while others run'
complete -c y4mserve -n '__fish_seen_subcommand_from serve' -l moment -x -a '10 20 30 40 100 1000' -d 'Microseconds of a moment, 1 to 1000000'
complete -c y4mserve -n '__fish_seen_subcommand_from serve' -l trace -r -F -d 'File that a trace of the run is written to'
complete -c y4mserve -n '__fish_seen_subcommand_from filter' -s q -l quiet -d 'Show no progress and no hint on a terminal'
complete -c y4mserve -n '__fish_seen_subcommand_from serve' -s q -l quiet -d 'Show no progress on a terminal'
complete -c y4mserve -n '__fish_seen_subcommand_from filter; and not __fish_seen_subcommand_from help' -a '(__y4mserve_operations)'
