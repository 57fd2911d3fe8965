# Completes the commands, options, files, entries and variables of btrun in fish. Put it in ~/.config/fish/completions.

# The words before the one that is completed which are files.
function __btrun_files
    for word in (commandline -opc)[3..]
        test -f $word; and echo $word
    end
end

# Whether the next word is the entry of a thread: all files of the command are there.
function __btrun_takes_entry
    set -l command (commandline -opc)[2]
    set -l files (count (__btrun_files))
    contains $command$files run1 test1 explore1 drive2 confirm2
end

# The procedures of a program that take no arguments, as `check --json` has them.
function __btrun_entries
    btrun check (__btrun_files)[1] --json 2> /dev/null | string match -arg '"name":"(\w+)","formals":\[\]'
end

# The variables of a program whose names have no braces; after a dot the locals, each after its procedure.
function __btrun_variables
    set -l given (commandline -ct | string match -r '^.*,'; or echo)
    if string match -q '*.*' -- (commandline -ct | string replace -r '^.*,' '')
        btrun check (__btrun_files)[1] --json 2> /dev/null |
            string match -ar '"name":"\w+","formals":\[[^]]*\],"locals":\[[^]]*' | while read --local procedure
            set -l names (string match -arg '"(\w+)"(?!:)' -- $procedure)
            printf '%s\n' $given$names[1].$names[2..]
        end
    else
        printf '%s\n' $given(btrun check (__btrun_files)[1] --json 2> /dev/null |
            string match -arg '"(?:formals|locals|globals)":\[([^]]*)' | string match -arg '"(\w+)"')
    end
end

# The globals of a program whose names have no braces, each with either bit, after those that are given.
function __btrun_bits
    set -l given (commandline -ct | string match -r '^.*,'; or echo)
    for name in (btrun check (__btrun_files)[1] --json 2> /dev/null | string match -arg '"globals":\[([^]]*)' |
        string match -arg '"(\w+)"')
        printf '%s\n' $given$name={0,1}
    end
end

complete -c btrun -n __btrun_takes_entry -f -a '(__btrun_entries)' -d 'An entry'

complete -c btrun -n __fish_use_subcommand -f -a check -d 'Check a program'
complete -c btrun -n __fish_use_subcommand -f -a code -d 'Print the listing of its code'
complete -c btrun -n __fish_use_subcommand -f -a drive -d 'Drive it by a schedule'
complete -c btrun -n __fish_use_subcommand -f -a confirm -d 'Confirm the steps that another tool reports'
complete -c btrun -n __fish_use_subcommand -f -a run -d 'Run it by one worker for each thread'
complete -c btrun -n __fish_use_subcommand -f -a test -d 'Test it by runs whose schedules are drawn'
complete -c btrun -n __fish_use_subcommand -f -a explore -d 'Look through all its runs'
complete -c btrun -n __fish_use_subcommand -f -a replay -d 'Replay a trace'
complete -c btrun -n __fish_use_subcommand -f -a show -d 'Show a trace call by call'
complete -c btrun -n __fish_use_subcommand -f -a migrate -d 'Print the trace of version 2'
complete -c btrun -n __fish_use_subcommand -f -a shrink -d 'Make the trace of a failure or deadlock smaller'
complete -c btrun -n __fish_use_subcommand -f -a help -d 'Print help'

set -l all check code drive confirm run test explore replay show migrate shrink
complete -c btrun -n '__fish_seen_subcommand_from help' -f -a "$all"
complete -c btrun -n "__fish_seen_subcommand_from $all" -l explain -d 'Explain an error on further lines'
complete -c btrun -n "__fish_seen_subcommand_from $all" -l no-explain -d 'Do not explain errors'
complete -c btrun -n "__fish_seen_subcommand_from $all" -l help -d 'Print help'

set -l starting drive confirm run test
complete -c btrun -n "__fish_seen_subcommand_from $starting" -x -l contexts -d 'Allow N contexts'
complete -c btrun -n "__fish_seen_subcommand_from $starting" -x -l calls -d 'Allow each thread N calls'
complete -c btrun -n "__fish_seen_subcommand_from $starting" -x -l init -a '(__btrun_bits)' -d 'The initial bits of the globals'

set -l seeded run test
complete -c btrun -n "__fish_seen_subcommand_from $seeded" -x -l seed -d 'The seed of the choice bits'

complete -c btrun -n '__fish_seen_subcommand_from check' -l json -d 'Print one JSON object'
complete -c btrun -n '__fish_seen_subcommand_from code' -l source -d 'Print the statement of each instruction'
complete -c btrun -n '__fish_seen_subcommand_from code' -l json -d 'Print one JSON object a line'

complete -c btrun -n '__fish_seen_subcommand_from confirm' -x -l expect -a 'failure deadlock run' -d 'How the run is to end'
complete -c btrun -n '__fish_seen_subcommand_from confirm' -l json -d 'Print the verdict or an error as JSON objects'

complete -c btrun -n '__fish_seen_subcommand_from run' -x -l turn -d 'How many calls a worker makes in a turn'
complete -c btrun -n '__fish_seen_subcommand_from run' -x -l ring -d 'How many calls wait to be printed'
complete -c btrun -n '__fish_seen_subcommand_from run' -l spread -d 'Take turns as they are drawn'

complete -c btrun -n '__fish_seen_subcommand_from test' -x -l runs -d 'Make at most N runs'
complete -c btrun -n '__fish_seen_subcommand_from test' -x -l time -d 'Begin no run after N seconds, and limit no number of runs'
complete -c btrun -n '__fish_seen_subcommand_from test' -x -l jobs -d 'How many blocks of runs are made side by side'
complete -c btrun -n '__fish_seen_subcommand_from test' -l deadlock -d 'Also stop at a run that ends in a deadlock'
complete -c btrun -n '__fish_seen_subcommand_from test' -l unreached -d 'List the statements that no run reached'
complete -c btrun -n '__fish_seen_subcommand_from test' -l json -d 'Write the summary as JSON objects'

complete -c btrun -n '__fish_seen_subcommand_from explore' -x -l contexts -d 'Look through runs within N contexts'
complete -c btrun -n '__fish_seen_subcommand_from explore' -x -l init -a '(__btrun_bits)' -d 'The initial bits of the globals'
complete -c btrun -n '__fish_seen_subcommand_from explore' -x -l states -d 'Keep at most N states'
complete -c btrun -n '__fish_seen_subcommand_from explore' -x -l time -d 'Stop after N seconds'
complete -c btrun -n '__fish_seen_subcommand_from explore' -l deadlock -d 'Also look for a run that ends in a deadlock'
complete -c btrun -n '__fish_seen_subcommand_from explore' -r -l through -d 'Look for a run that makes the steps of this file'
complete -c btrun -n '__fish_seen_subcommand_from explore' -l json -d 'Write the summary as a JSON object'

complete -c btrun -n '__fish_seen_subcommand_from show' -x -l thread -d 'Show the calls of this thread alone'
complete -c btrun -n '__fish_seen_subcommand_from show' -x -l last -d 'Show the last calls alone'
complete -c btrun -n '__fish_seen_subcommand_from show' -x -l from -d 'Show no call before this one'
complete -c btrun -n '__fish_seen_subcommand_from show' -x -l to -d 'Show no call after this one'
complete -c btrun -n '__fish_seen_subcommand_from show' -x -l watch -a '(__btrun_variables)' -d 'Show the calls alone that change these variables'
complete -c btrun -n '__fish_seen_subcommand_from show' -l fold -d 'Show equal waits as one line'
complete -c btrun -n '__fish_seen_subcommand_from show' -l state -d 'Show the state after the last call too'
complete -c btrun -n '__fish_seen_subcommand_from show' -l brief -d 'Leave out the setup'
complete -c btrun -n '__fish_seen_subcommand_from show' -l valid -d 'Show the accepted calls of a refused trace'
complete -c btrun -n '__fish_seen_subcommand_from show' -x -l at -d 'Show the state after this call'
complete -c btrun -n '__fish_seen_subcommand_from show' -l contexts -d 'Show a line for each context'
complete -c btrun -n '__fish_seen_subcommand_from show' -l steps -d 'Show only the steps'
complete -c btrun -n '__fish_seen_subcommand_from show' -l json -d 'Print one JSON object a line'
