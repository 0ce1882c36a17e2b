# Completion for fish: the commands of tmx, the options of each, files for FILE and RECORDING, and folders for DIR.

# Whether the command is one of these; with none, whether there is no command yet.
function __tmx_command_is
    set -l words (commandline -opc)
    if test (count $words) = 1
        test (count $argv) = 0
    else
        contains -- $words[2] $argv
    end
end

complete -c tmx -f
complete -c tmx -n __tmx_command_is -s h -l help -d 'Print help'
complete -c tmx -n __tmx_command_is -s V -l version -d 'Print the version'
complete -c tmx -n __tmx_command_is -a frames -d 'List the frames'
complete -c tmx -n __tmx_command_is -a packets -d 'List the packets'
complete -c tmx -n __tmx_command_is -a extract -d 'Give the octets of the packets'
complete -c tmx -n __tmx_command_is -a split -d 'Give the octets of the packets, a file for each application'
complete -c tmx -n __tmx_command_is -a fields -d 'Read the fields of the packets of an application'
complete -c tmx -n __tmx_command_is -a summary -d 'Sum up what came and what was lost'

set -l command '__tmx_command_is frames packets extract split fields summary'
complete -c tmx -n $command -F
complete -c tmx -n $command -s h -l help -d 'Print help'
complete -c tmx -n $command -l settings -r -F -d 'The settings of the recording'

set -l command '__tmx_command_is split'
complete -c tmx -n $command -l dir -x -a '(__fish_complete_directories)' -d 'The folder for the files'

set -l command '__tmx_command_is fields'
complete -c tmx -n $command -l definition -r -F -d 'The definition of the fields'
complete -c tmx -n $command -l apid -x -d 'The application, 0 to 2047'

set -l command '__tmx_command_is packets fields'
complete -c tmx -n $command -l binary -d 'Octets in place of lines or rows'

set -l command '__tmx_command_is packets extract split fields'
complete -c tmx -n $command -l report -r -F -d 'The file of the report'
complete -c tmx -n $command -l checkpoint -r -F -d 'The checkpoint to write after the run'
complete -c tmx -n $command -l stop-after -x -d 'How many records further to stop'
complete -c tmx -n $command -l resume -r -F -d 'The checkpoint to go on from'

set -l command '__tmx_command_is packets extract split fields summary'
complete -c tmx -n $command -l strict -d 'Status 4 or 5 by what is bad or lost'
