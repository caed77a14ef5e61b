# Completion of `sng` for fish: /usr/share/fish/vendor_completions.d/sng.fish. tests/completions.py holds it
# against the help of the program.

set -l first __fish_use_subcommand
set -l behind __fish_seen_subcommand_from

complete -c sng -f
complete -c sng -s h -l help -d 'Print help'
complete -c sng -n $first -s V -l version -d 'Print version'

complete -c sng -n $first -a play -d 'Plays a script of events from standard input'
complete -c sng -n $first -a check \
    -d 'Tells whether a book is a lawful history: of a script from standard input, or on disk'
complete -c sng -n $first -a book \
    -d 'Tells what was decided, by a book on disk or the rows of standard input'
complete -c sng -n $first -a cover \
    -d 'Tells whether a topic filter matches only names that granted ones match'
complete -c sng -n $first -a may -d 'Tells what a policy allows'
complete -c sng -n $first -a policy -d 'Checks a policy, and shows where its first fault stands'
complete -c sng -n $first -a serve \
    -d 'Serves between MQTT-SN devices and an MQTT broker, until `quit` or the end of input'
complete -c sng -n $first -a status \
    -d 'Tells how a running gateway stands, which serves its figures by --metrics'
complete -c sng -n $first -a broker \
    -d 'A small MQTT broker for tests, until it is stopped from outside'
complete -c sng -n $first -a help -d 'Print this message or the help of the given subcommand(s)'

complete -c sng -n "$behind check" -F
complete -c sng -n "$behind book" -F
complete -c sng -n "$behind policy" -F
complete -c sng -n "$behind help" -a 'play check book cover may policy serve status broker help'

complete -c sng -n "$behind check" -l book -rF \
    -d 'The folders of books on disk, each of which is checked, or files of one'
complete -c sng -n "$behind book" -l client -x -d 'Only decisions that speak of this client'
complete -c sng -n "$behind book" -l from -x \
    -d 'Only those of what came from here, IP or IP:PORT, or of who is here'
complete -c sng -n "$behind book" -l name -x -d 'Only those about names that this topic filter matches'
complete -c sng -n "$behind book" -l denied -d 'Only those that denied something'
complete -c sng -n "$behind book" -l kind -x -d 'Only those of these kinds, as publish,hand'
complete -c sng -n "$behind book" -l json -d 'Tells each as an object of JSON on a line of its own'
complete -c sng -n "$behind book" -l since -x \
    -d 'Only those of this time or later, in UTC, as 2026-11-26T12:00:00Z'
complete -c sng -n "$behind book" -l until -x -d 'Only those of this time or before'
complete -c sng -n "$behind book" -l row -x -d 'Only those of this row or these, as 7, 7..12, 7.. or ..12'
complete -c sng -n "$behind book" -l count \
    -d 'Tells only how many there are, by kind and by whom they speak of'
complete -c sng -n "$behind book" -l follow \
    -d 'Goes on as the last book grows, until it is stopped from outside'
complete -c sng -n "$behind may" -l policy -rF -d 'The file of the policy'
complete -c sng -n "$behind policy" -l print -d 'Prints the policy as one line, the same for all texts of it'
complete -c sng -n "$behind may" -l source -x \
    -d 'Asks for the source with this IPv4 address: CLIENT is left out'
complete -c sng -n "$behind may" -l at -x \
    -d 'Asks for this time: ms of Unix time, or a date and a time; without it for now'
complete -c sng -n "$behind may" -a 'publish receive subscribe'

complete -c sng -n "$behind serve" -l config -rF \
    -d 'The file that says, in TOML, what the other options leave out'
complete -c sng -n "$behind serve" -l listen -x -d 'Where devices are listened to, IP:PORT'
complete -c sng -n "$behind serve" -l broker -x -d 'Where the broker is, IP:PORT'
complete -c sng -n "$behind serve" -l id -x -d 'The client id of the gateway at the broker'
complete -c sng -n "$behind serve" -l workers -x -a '1 2 3 4 5 6 7 8' \
    -d 'How many workers read datagrams, from 1 to 8'
complete -c sng -n "$behind serve" -l tries -x \
    -d 'How many tries to connect may fail in a row: 5 where it is left out; 0 is no end'
complete -c sng -n "$behind serve" -l policy -rF \
    -d 'The file of the policy, read at the start, when it changes, and on a line `reload`'
complete -c sng -n "$behind serve" -l no-watch -d 'Does not look whether the file of the policy changes'
complete -c sng -n "$behind serve" -l book -rF \
    -d 'The folder where the book is kept on disk: without it a run ends with 1000000 rows'
complete -c sng -n "$behind serve" -l metrics -x \
    -d 'Where figures are asked for over HTTP, IP:PORT: nowhere where it is left out'
complete -c sng -n "$behind serve" -l verbose -d 'Prints rows as they are made'
complete -c sng -n "$behind serve" -l rows -d 'Prints all rows as the gateway stops'
complete -c sng -n "$behind serve" -l log-time -d 'Begins each line on standard error with the time'
complete -c sng -n "$behind serve" -l flood-each -x \
    -d 'How many denied datagrams a second one stranger may send: 50 where it is left out'
complete -c sng -n "$behind serve" -l flood-all -x \
    -d 'How many all strangers together may send: 1000 where it is left out'

complete -c sng -n "$behind broker" -l listen -x -d 'Where clients are listened to, IP:PORT'
