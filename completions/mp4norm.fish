# Completion of mp4norm for fish.

# Words of a list with commas, each offered once; what is before the last comma stays.
function __mp4norm_without
    set -l before (commandline -ct | string replace -r '^--without=' '' | string match -r '^.*,')
    for word in packaging-2 media-2 packaging-1 media-1 times edits flags groups metadata bitrates ends origins labels timing roles ids timescales lead-ins
        string match -q "*,$word,*" ",$before"
        or echo "$before$word"
    end
end

# Files after an @: lists of files.
function __mp4norm_at
    set -l word (commandline -ct)
    if string match -q '@*' -- $word
        printf '@%s\n' (__fish_complete_path (string sub -s 2 -- $word))
    end
end

complete -c mp4norm -f
complete -c mp4norm -n __fish_use_subcommand -a compare -d 'Compare the content of two files'
complete -c mp4norm -n __fish_use_subcommand -a check -d 'Print whether each file is accepted'
complete -c mp4norm -n __fish_use_subcommand -a sum -d 'Print the SHA-256 of each normal form, or check a list of them'
complete -c mp4norm -n __fish_use_subcommand -a normalise -d 'Write the normal form of a file'
complete -c mp4norm -n __fish_use_subcommand -a print -d 'Print the content of a file as text for version control'
complete -c mp4norm -n __fish_use_subcommand -a show -d 'Print the movie and its tracks as one line of JSON'
complete -c mp4norm -n __fish_use_subcommand -a samples -d 'List the samples of a track'
complete -c mp4norm -n __fish_use_subcommand -a extract -d 'Write the bytes of the samples of a track'
complete -c mp4norm -n __fish_use_subcommand -a boxes -d 'List the boxes of a file'
complete -c mp4norm -n __fish_use_subcommand -a strip -d 'Copy a file, and change some of its boxes to free space'
complete -c mp4norm -n __fish_use_subcommand -a help -d 'Print help'
complete -c mp4norm -n '__fish_seen_subcommand_from compare check sum normalise normalize print show samples extract boxes strip' -Fa '(__mp4norm_at)'
complete -c mp4norm -n '__fish_seen_subcommand_from help' -a 'compare check sum normalise print show samples extract boxes strip'
complete -c mp4norm -n '__fish_seen_subcommand_from samples extract' -l track -x -d 'The ID of the track'
complete -c mp4norm -n '__fish_seen_subcommand_from normalise normalize print sum' -l track -x -d 'The ID of the only track to take'
complete -c mp4norm -n '__fish_seen_subcommand_from compare' -l track -x -d 'The IDs of a track of each file, as A:B'
complete -c mp4norm -n '__fish_seen_subcommand_from samples' -l header -d 'Begin with the names of the columns'
complete -c mp4norm -n '__fish_seen_subcommand_from samples boxes compare check sum' -l json -d 'Print JSON objects'
complete -c mp4norm -n '__fish_seen_subcommand_from normalise normalize extract strip print' -s o -l out -rF -d 'The file to write'
complete -c mp4norm -n '__fish_seen_subcommand_from normalise normalize extract strip' -l max-bytes -x -d 'Write nothing if the answer has more bytes'
complete -c mp4norm -n '__fish_seen_subcommand_from normalise normalize extract strip print' -l replace -d 'Replace the file once all is written'
complete -c mp4norm -n '__fish_seen_subcommand_from compare check sum normalise normalize print show samples extract boxes strip' -l max-parts -x -d 'How many files a list may name'
complete -c mp4norm -n '__fish_seen_subcommand_from normalise normalize extract strip' -l progress -d 'Show progress'
complete -c mp4norm -n '__fish_seen_subcommand_from strip' -l foreign -d 'All boxes that are not in the profile'
complete -c mp4norm -n '__fish_seen_subcommand_from normalise normalize compare check sum print' -l foreign -d 'Read boxes that are not in the profile as free space'
complete -c mp4norm -n '__fish_seen_subcommand_from normalise normalize strip compare check sum print' -l lossy -d 'Even if a box is lost that players need'
complete -c mp4norm -n '__fish_seen_subcommand_from strip' -l drop -x -d 'Types of boxes, separated by commas'
complete -c mp4norm -n '__fish_seen_subcommand_from check sum' -l names-from -rF -d 'A file of more names'
complete -c mp4norm -n '__fish_seen_subcommand_from compare check sum normalise normalize print show samples extract boxes strip' -l explain -d 'Explain a refusal or a failure'
complete -c mp4norm -n '__fish_seen_subcommand_from compare check sum normalise normalize print show samples extract boxes strip' -l brief -d 'Print one line for a refusal or a failure'
complete -c mp4norm -n '__fish_seen_subcommand_from normalise normalize compare sum print' -l without -x -a '(__mp4norm_without)' -d 'Sets or categories of content to ignore'
complete -c mp4norm -n '__fish_seen_subcommand_from boxes' -l fields -d 'Show the fields of each box'
complete -c mp4norm -n '__fish_seen_subcommand_from boxes' -l rows -x -d 'How many entries of a table to show'
complete -c mp4norm -n '__fish_seen_subcommand_from compare' -l all -d 'List all differences'
complete -c mp4norm -n '__fish_seen_subcommand_from compare' -l align -d 'List all differences, and first where samples of tracks agree'
complete -c mp4norm -n '__fish_seen_subcommand_from compare' -l limit -x -d 'How many differences to list'
complete -c mp4norm -n '__fish_seen_subcommand_from check sum' -l zero -d 'End lines with a zero byte'
complete -c mp4norm -n '__fish_seen_subcommand_from sum' -l no-header -d 'Print no first line, which says what the sums are of'
complete -c mp4norm -n '__fish_seen_subcommand_from sum' -l bytes -d 'Print the SHA-256 of the bytes of refused files too'
complete -c mp4norm -n '__fish_seen_subcommand_from sum' -l check -rF -d 'A list of sums to check'
complete -c mp4norm -n '__fish_seen_subcommand_from sum' -l quiet -d 'Print nothing for files that have their sum'
complete -c mp4norm -n '__fish_seen_subcommand_from sum' -l summary -d 'Count the files that have their sum'
complete -c mp4norm -n '__fish_seen_subcommand_from sum' -l new -d 'Print the names that the list does not have'
complete -c mp4norm -n 'not __fish_seen_subcommand_from help' -s h -l help -d 'Print help'
complete -c mp4norm -n __fish_use_subcommand -s V -l version -d 'Print the version'
