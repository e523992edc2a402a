# Completions of swsusp for fish, as its `--help` lists them.
set -l commands inspect hibernate resume replay drill export import help
complete -c swsusp -f
complete -c swsusp -n __fish_use_subcommand -a inspect -d 'Tells what the header block of a swap area says'
complete -c swsusp -n __fish_use_subcommand -a hibernate -d 'Reads a memory dump, and lets its machine hibernate'
complete -c swsusp -n __fish_use_subcommand -a resume -d 'Resumes the image of a swap area'
complete -c swsusp -n __fish_use_subcommand -a replay -d 'Plays a script, and prints the replies'
complete -c swsusp -n __fish_use_subcommand -a drill -d 'Plays the run that is made from a number'
complete -c swsusp -n __fish_use_subcommand -a export -d 'Writes the image of a memory dump as a stream'
complete -c swsusp -n __fish_use_subcommand -a import -d 'Writes a stream into a swap area'
complete -c swsusp -n __fish_use_subcommand -a help -d 'Prints help'
complete -c swsusp -s h -l help -d 'Print help'
complete -c swsusp -n __fish_use_subcommand -s V -l version -d 'Print version'
complete -c swsusp -n '__fish_seen_subcommand_from inspect' -l offset -x -d 'The block of the header'
complete -c swsusp -n '__fish_seen_subcommand_from hibernate' -l skip-zeros -d 'Leave out pages that are all zero'
complete -c swsusp -n '__fish_seen_subcommand_from hibernate' -l image-size -x -d 'Drop cached page frames until N saveable ones are left'
complete -c swsusp -n '__fish_seen_subcommand_from resume' -l any-kernel -d 'Take an image of another kernel too'
complete -c swsusp -n '__fish_seen_subcommand_from inspect hibernate resume import' -F
complete -c swsusp -n '__fish_seen_subcommand_from help' -a "$commands[1..7]"
