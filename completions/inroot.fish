# Completion of inroot(1) for fish.
complete -c inroot -f
set -l commands walk replay draw run explore help
# The last argument is a script's file; of walk a path stands before it. Its name is completed once it is begun, since `-q`
# as an argument is an option.
complete -c inroot -n '__fish_seen_subcommand_from replay draw run explore; and test -n (commandline -ct)""' -F
complete -c inroot -n '__fish_seen_subcommand_from walk; and test -n (commandline -ct)"" -a (commandline -opc | string match -v -- "-*" | count) -gt 2' -F
complete -c inroot -n "not __fish_seen_subcommand_from $commands" -a walk -d 'Resolve a path over a script'
complete -c inroot -n "not __fish_seen_subcommand_from $commands" -a replay -d 'Play a script, and print each event'
complete -c inroot -n "not __fish_seen_subcommand_from $commands" -a draw -d 'Play a script, and draw it'
complete -c inroot -n "not __fish_seen_subcommand_from $commands" -a run -d 'Let threads make the calls'
complete -c inroot -n "not __fish_seen_subcommand_from $commands" -a explore -d 'Play a script by every schedule'
complete -c inroot -n "not __fish_seen_subcommand_from $commands" -a help -d 'Print help'
complete -c inroot -n '__fish_seen_subcommand_from help' -a 'walk replay draw run explore'
complete -c inroot -s h -l help -d 'Print help'
complete -c inroot -n "not __fish_seen_subcommand_from $commands" -s V -l version -d 'Print the version'
complete -c inroot -n '__fish_seen_subcommand_from walk' -s b -l beneath -d 'Refuse what leads out of the root'
complete -c inroot -n '__fish_seen_subcommand_from walk' -s L -l no-links -d 'Follow no link'
complete -c inroot -n '__fish_seen_subcommand_from replay draw' -l schedule -x -d 'Take these turns'
complete -c inroot -n '__fish_seen_subcommand_from draw' -l svg -d 'Draw as SVG'
complete -c inroot -n '__fish_seen_subcommand_from replay' -l json -d 'Print JSON'
complete -c inroot -n '__fish_seen_subcommand_from draw' -l html -d 'Draw a page for a browser'
complete -c inroot -n '__fish_seen_subcommand_from draw' -l all -d 'Draw each close'
complete -c inroot -n '__fish_seen_subcommand_from draw' -l width -x -d 'In so many columns'
complete -c inroot -n '__fish_seen_subcommand_from draw' -l color -x -a 'never auto always' -d 'When to use colours'
complete -c inroot -n '__fish_seen_subcommand_from run' -l workers -x -a '1 2 3 4 5 6 7 8' -d 'How many threads'
complete -c inroot -n '__fish_seen_subcommand_from explore' -l actor -x -d 'Print the replies of this actor'
complete -c inroot -n '__fish_seen_subcommand_from explore' -l cuts -x -d 'Take schedules with at most so many cuts'
complete -c inroot -n '__fish_seen_subcommand_from explore' -l begin -x -d 'Take schedules that begin so'
complete -c inroot -n '__fish_seen_subcommand_from explore' -l html -d 'Print a page for a browser'
complete -c inroot -n '__fish_seen_subcommand_from explore' -l part -d 'Print a line for a merge'
complete -c inroot -n '__fish_seen_subcommand_from explore' -l merge -d 'Print what such lines of these files make together'
complete -c inroot -n '__fish_seen_subcommand_from explore' -l states -x -d 'Give up past so many states'
complete -c inroot -n '__fish_seen_subcommand_from explore' -l memory -x -d 'Give up where more megabytes are taken'
complete -c inroot -n '__fish_seen_subcommand_from explore' -l outside -d 'Count steps outside of the root'
complete -c inroot -n '__fish_seen_subcommand_from explore' -l when -x -d 'Take schedules by which a report has this line'
complete -c inroot -n '__fish_seen_subcommand_from explore' -l never -x -d 'Whether no report has this line'
complete -c inroot -n '__fish_seen_subcommand_from explore' -l always -x -d 'Whether every report has it'
complete -c inroot -n '__fish_seen_subcommand_from walk replay draw run explore' -l strict -d 'Refuse what nobody looks at'
