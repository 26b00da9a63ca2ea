# Completions of textpeer for fish. Made by tools/completions of what the program prints as its help.

# Whether this is the command.
function __textpeer_does --argument-names command
    set -l words (commandline -opc)
    test "$words[2]" = $command
end

# Which of its values is the next one, from 1; 0 after an option that takes a value.
function __textpeer_place
    set -l words (commandline -opc)[3..]
    set -l place 1
    while set -q words[1]
        if contains -- $words[1] --at --del --follow --key --message --mirror --most --patience --serve --sessions --since --take --text --text-file --time --to --unified --wait --with --workers -U
            set -e words[1]
            set -q words[1]; or set place 0
        else if not string match -q -- '-*' $words[1]
            set place (math $place + 1)
        end
        set -e words[1]
    end
    echo $place
end

# The changes of the journal that is the first value.
function __textpeer_changes
    set -l words (commandline -opc)
    command $words[1] log (string replace -r '^~/' $HOME/ -- $words[3]) 2>/dev/null | string replace ' ' \t
end

complete -c textpeer -f
complete -c textpeer -n __fish_use_subcommand -s h -l help -d 'Print help'
complete -c textpeer -n __fish_use_subcommand -s V -l version -d 'Print version'
complete -c textpeer -n __fish_use_subcommand -a new -d 'Begins a journal, and prints the identifier of its document'
complete -c textpeer -n '__textpeer_does new; and test (__textpeer_place) -eq 1' -F
complete -c textpeer -n '__textpeer_does new; and not __fish_contains_opt wait' -l wait -x -d 'how many seconds to wait for FILE'\''s lock where another program has it, up to 86400; not at all if 0 [default: 5]'
complete -c textpeer -n '__textpeer_does new; and not __fish_contains_opt key' -l key -x -d 'the seed of the random numbers, in 64 hexadecimal digits; from /dev/urandom if left out. It encrypts nothing'
complete -c textpeer -n '__textpeer_does new; and not __fish_contains_opt explain' -l explain -d 'adds below a refusal which file it is about and what to do; always on where the standard error is a terminal'
complete -c textpeer -n '__textpeer_does new; and not __fish_contains_opt -s h help' -s h -l help -d 'Print help'
complete -c textpeer -n __fish_use_subcommand -a edit -d 'Makes one change, and prints its hash, or `nothing` where it changes nothing'
complete -c textpeer -n '__textpeer_does edit; and test (__textpeer_place) -eq 1' -F
complete -c textpeer -n '__textpeer_does edit; and not __fish_contains_opt at' -l at -x -d 'the position, in characters from 0'
complete -c textpeer -n '__textpeer_does edit; and not __fish_contains_opt del' -l del -x -d 'how many characters are deleted from the position on'
complete -c textpeer -n '__textpeer_does edit; and not __fish_contains_opt text' -l text -x -d 'the text that is inserted there; a text that begins with - is written as --text=-x'
complete -c textpeer -n '__textpeer_does edit; and not __fish_contains_opt text-file' -l text-file -x -d 'in place of --text, a file of the text; - is the standard input'
complete -c textpeer -n '__textpeer_does edit; and not __fish_contains_opt time' -l time -x -d 'the time of the change [default: 0]'
complete -c textpeer -n '__textpeer_does edit; and not __fish_contains_opt message' -l message -x -d 'the message of the change; empty if left out'
complete -c textpeer -n '__textpeer_does edit; and not __fish_contains_opt wait' -l wait -x -d 'how many seconds to wait for FILE'\''s lock where another program has it, up to 86400; not at all if 0 [default: 5]'
complete -c textpeer -n '__textpeer_does edit; and not __fish_contains_opt key' -l key -x -d 'the seed of the random numbers, in 64 hexadecimal digits; from /dev/urandom if left out. It encrypts nothing'
complete -c textpeer -n '__textpeer_does edit; and not __fish_contains_opt explain' -l explain -d 'adds below a refusal which file it is about and what to do; always on where the standard error is a terminal'
complete -c textpeer -n '__textpeer_does edit; and not __fish_contains_opt -s h help' -s h -l help -d 'Print help'
complete -c textpeer -n __fish_use_subcommand -a update -d 'Makes the journal'\''s text equal to that of a file, by the differences between them, and prints the hash of each change, or `nothing` where they are equal'
complete -c textpeer -n '__textpeer_does update; and test (__textpeer_place) -eq 1' -F
complete -c textpeer -n '__textpeer_does update; and test (__textpeer_place) -eq 2' -F
complete -c textpeer -n '__textpeer_does update; and not __fish_contains_opt time' -l time -x -d 'the time of the change [default: 0]'
complete -c textpeer -n '__textpeer_does update; and not __fish_contains_opt message' -l message -x -d 'the message of the change; empty if left out'
complete -c textpeer -n '__textpeer_does update; and not __fish_contains_opt wait' -l wait -x -d 'how many seconds to wait for FILE'\''s lock where another program has it, up to 86400; not at all if 0 [default: 5]'
complete -c textpeer -n '__textpeer_does update; and not __fish_contains_opt key' -l key -x -d 'the seed of the random numbers, in 64 hexadecimal digits; from /dev/urandom if left out. It encrypts nothing'
complete -c textpeer -n '__textpeer_does update; and not __fish_contains_opt since' -l since -x -d 'the heads at which the file was taken out, as the last words of the line: what came since stays. If left out, what the file lacks is deleted'
complete -c textpeer -n '__textpeer_does update; and not __fish_contains_opt explain' -l explain -d 'adds below a refusal which file it is about and what to do; always on where the standard error is a terminal'
complete -c textpeer -n '__textpeer_does update; and not __fish_contains_opt -s h help' -s h -l help -d 'Print help'
complete -c textpeer -n __fish_use_subcommand -a import -d 'Brings the text of a file into a new journal, or one that has no text yet, and prints the hash of each change'
complete -c textpeer -n '__textpeer_does import; and test (__textpeer_place) -eq 1' -F
complete -c textpeer -n '__textpeer_does import; and test (__textpeer_place) -eq 2' -F
complete -c textpeer -n '__textpeer_does import; and not __fish_contains_opt time' -l time -x -d 'the time of the change [default: 0]'
complete -c textpeer -n '__textpeer_does import; and not __fish_contains_opt message' -l message -x -d 'the message of the change; empty if left out'
complete -c textpeer -n '__textpeer_does import; and not __fish_contains_opt wait' -l wait -x -d 'how many seconds to wait for FILE'\''s lock where another program has it, up to 86400; not at all if 0 [default: 5]'
complete -c textpeer -n '__textpeer_does import; and not __fish_contains_opt key' -l key -x -d 'the seed of the random numbers, in 64 hexadecimal digits; from /dev/urandom if left out. It encrypts nothing'
complete -c textpeer -n '__textpeer_does import; and not __fish_contains_opt explain' -l explain -d 'adds below a refusal which file it is about and what to do; always on where the standard error is a terminal'
complete -c textpeer -n '__textpeer_does import; and not __fish_contains_opt -s h help' -s h -l help -d 'Print help'
complete -c textpeer -n __fish_use_subcommand -a mirror -d 'Brings a text file and a journal in step: what an editor saved is merged into the journal, and then the file has the journal'\''s text'
complete -c textpeer -n '__textpeer_does mirror; and test (__textpeer_place) -eq 1' -F
complete -c textpeer -n '__textpeer_does mirror; and test (__textpeer_place) -eq 2' -F
complete -c textpeer -n '__textpeer_does mirror; and not __fish_contains_opt take' -l take -x -d 'which text counts at the first use, where the two differ: text, and the journal'\''s stays in its history; or journal, and NOTE'\''s is kept as NOTE.before'
complete -c textpeer -n '__textpeer_does mirror; and not __fish_contains_opt every' -l every -d 'goes on, and looks again each SECONDS, 1 to 86400; each second if none are given'
complete -c textpeer -n '__textpeer_does mirror; and not __fish_contains_opt follow' -l follow -x -d 'exchanges changes each second with the server at this address, as IP:PORT or HOST:PORT'
complete -c textpeer -n '__textpeer_does mirror; and not __fish_contains_opt wait' -l wait -x -d 'how many seconds to wait for FILE'\''s lock where another program has it, up to 86400; not at all if 0 [default: 5]'
complete -c textpeer -n '__textpeer_does mirror; and not __fish_contains_opt key' -l key -x -d 'the seed of the random numbers, in 64 hexadecimal digits; from /dev/urandom if left out. It encrypts nothing'
complete -c textpeer -n '__textpeer_does mirror; and not __fish_contains_opt explain' -l explain -d 'adds below a refusal which file it is about and what to do; always on where the standard error is a terminal'
complete -c textpeer -n '__textpeer_does mirror; and not __fish_contains_opt -s h help' -s h -l help -d 'Print help'
complete -c textpeer -n __fish_use_subcommand -a text -d 'Prints the text, as it is now or at earlier heads'
complete -c textpeer -n '__textpeer_does text; and test (__textpeer_place) -eq 1' -F
complete -c textpeer -n '__textpeer_does text; and test (__textpeer_place) -ge 2' -k -a '(__textpeer_changes)'
complete -c textpeer -n '__textpeer_does text; and not __fish_contains_opt raw' -l raw -d 'prints no newline after the text, as for a file that textpeer update reads'
complete -c textpeer -n '__textpeer_does text; and not __fish_contains_opt explain' -l explain -d 'adds below a refusal which file it is about and what to do; always on where the standard error is a terminal'
complete -c textpeer -n '__textpeer_does text; and not __fish_contains_opt -s h help' -s h -l help -d 'Print help'
complete -c textpeer -n __fish_use_subcommand -a heads -d 'Prints the heads, the hashes of the changes on which no other depends: they name the state of the text for --since and others'
complete -c textpeer -n '__textpeer_does heads; and test (__textpeer_place) -eq 1' -F
complete -c textpeer -n '__textpeer_does heads; and not __fish_contains_opt explain' -l explain -d 'adds below a refusal which file it is about and what to do; always on where the standard error is a terminal'
complete -c textpeer -n '__textpeer_does heads; and not __fish_contains_opt -s h help' -s h -l help -d 'Print help'
complete -c textpeer -n __fish_use_subcommand -a log -d 'Prints a line for each change: hash, actor, sequence number, time, inserted and deleted characters, message'
complete -c textpeer -n '__textpeer_does log; and test (__textpeer_place) -eq 1' -F
complete -c textpeer -n '__textpeer_does log; and not __fish_contains_opt pretty' -l pretty -d 'for people: the newest first, short hashes and actors, dates (UTC) of times that are seconds since 1970'
complete -c textpeer -n '__textpeer_does log; and not __fish_contains_opt most' -l most -x -d 'the newest N changes only'
complete -c textpeer -n '__textpeer_does log; and not __fish_contains_opt explain' -l explain -d 'adds below a refusal which file it is about and what to do; always on where the standard error is a terminal'
complete -c textpeer -n '__textpeer_does log; and not __fish_contains_opt -s h help' -s h -l help -d 'Print help'
complete -c textpeer -n __fish_use_subcommand -a graph -d 'Prints the changes as a graph in DOT, for Graphviz: an edge to each dependency, heads with a thick border'
complete -c textpeer -n '__textpeer_does graph; and test (__textpeer_place) -eq 1' -F
complete -c textpeer -n '__textpeer_does graph; and not __fish_contains_opt explain' -l explain -d 'adds below a refusal which file it is about and what to do; always on where the standard error is a terminal'
complete -c textpeer -n '__textpeer_does graph; and not __fish_contains_opt -s h help' -s h -l help -d 'Print help'
complete -c textpeer -n __fish_use_subcommand -a diff -d 'Prints which lines of an earlier text became which of a later one, by what was really typed and deleted'
complete -c textpeer -n '__textpeer_does diff; and test (__textpeer_place) -eq 1' -F
complete -c textpeer -n '__textpeer_does diff; and test (__textpeer_place) -ge 2' -k -a '(__textpeer_changes)'
complete -c textpeer -n '__textpeer_does diff; and not __fish_contains_opt to' -l to -x -d 'a head of the later text, once for each; as it is now if left out'
complete -c textpeer -n '__textpeer_does diff; and not __fish_contains_opt -s U unified' -s U -l unified -x -d 'prints N lines before and after those that differ too, for `patch` with names of the texts'
complete -c textpeer -n '__textpeer_does diff; and not __fish_contains_opt words' -l words -d 'prints each line that differs once, with [-what went-] and {+what came+} in their places'
complete -c textpeer -n '__textpeer_does diff; and not __fish_contains_opt explain' -l explain -d 'adds below a refusal which file it is about and what to do; always on where the standard error is a terminal'
complete -c textpeer -n '__textpeer_does diff; and not __fish_contains_opt -s h help' -s h -l help -d 'Print help'
complete -c textpeer -n __fish_use_subcommand -a status -d 'Prints what a journal has: document, changes, authors, characters, heads, bytes; and which process has it open'
complete -c textpeer -n '__textpeer_does status; and test (__textpeer_place) -eq 1' -F
complete -c textpeer -n '__textpeer_does status; and not __fish_contains_opt explain' -l explain -d 'adds below a refusal which file it is about and what to do; always on where the standard error is a terminal'
complete -c textpeer -n '__textpeer_does status; and not __fish_contains_opt -s h help' -s h -l help -d 'Print help'
complete -c textpeer -n __fish_use_subcommand -a cursor -d 'Prints where a character of the text at earlier heads is now'
complete -c textpeer -n '__textpeer_does cursor; and test (__textpeer_place) -eq 1' -F
complete -c textpeer -n '__textpeer_does cursor; and test (__textpeer_place) -ge 3' -k -a '(__textpeer_changes)'
complete -c textpeer -n '__textpeer_does cursor; and not __fish_contains_opt explain' -l explain -d 'adds below a refusal which file it is about and what to do; always on where the standard error is a terminal'
complete -c textpeer -n '__textpeer_does cursor; and not __fish_contains_opt -s h help' -s h -l help -d 'Print help'
complete -c textpeer -n __fish_use_subcommand -a check -d 'Says how much of a journal is intact, and what follows that: a fault with its place, and whole changes'
complete -c textpeer -n '__textpeer_does check; and test (__textpeer_place) -eq 1' -F
complete -c textpeer -n '__textpeer_does check; and not __fish_contains_opt explain' -l explain -d 'adds below a refusal which file it is about and what to do; always on where the standard error is a terminal'
complete -c textpeer -n '__textpeer_does check; and not __fish_contains_opt -s h help' -s h -l help -d 'Print help'
complete -c textpeer -n __fish_use_subcommand -a merge -d 'Takes the changes of another journal of the document, and prints how many entered'
complete -c textpeer -n '__textpeer_does merge; and test (__textpeer_place) -eq 1' -F
complete -c textpeer -n '__textpeer_does merge; and test (__textpeer_place) -eq 2' -F
complete -c textpeer -n '__textpeer_does merge; and not __fish_contains_opt wait' -l wait -x -d 'how many seconds to wait for FILE'\''s lock where another program has it, up to 86400; not at all if 0 [default: 5]'
complete -c textpeer -n '__textpeer_does merge; and not __fish_contains_opt key' -l key -x -d 'the seed of the random numbers, in 64 hexadecimal digits; from /dev/urandom if left out. It encrypts nothing'
complete -c textpeer -n '__textpeer_does merge; and not __fish_contains_opt explain' -l explain -d 'adds below a refusal which file it is about and what to do; always on where the standard error is a terminal'
complete -c textpeer -n '__textpeer_does merge; and not __fish_contains_opt -s h help' -s h -l help -d 'Print help'
complete -c textpeer -n __fish_use_subcommand -a save -d 'Writes the document of a journal as a saved file'
complete -c textpeer -n '__textpeer_does save; and test (__textpeer_place) -eq 1' -F
complete -c textpeer -n '__textpeer_does save; and test (__textpeer_place) -eq 2' -F
complete -c textpeer -n '__textpeer_does save; and not __fish_contains_opt explain' -l explain -d 'adds below a refusal which file it is about and what to do; always on where the standard error is a terminal'
complete -c textpeer -n '__textpeer_does save; and not __fish_contains_opt -s h help' -s h -l help -d 'Print help'
complete -c textpeer -n __fish_use_subcommand -a load -d 'Makes a journal of a saved file'
complete -c textpeer -n '__textpeer_does load; and test (__textpeer_place) -eq 1' -F
complete -c textpeer -n '__textpeer_does load; and test (__textpeer_place) -eq 2' -F
complete -c textpeer -n '__textpeer_does load; and not __fish_contains_opt wait' -l wait -x -d 'how many seconds to wait for FILE'\''s lock where another program has it, up to 86400; not at all if 0 [default: 5]'
complete -c textpeer -n '__textpeer_does load; and not __fish_contains_opt explain' -l explain -d 'adds below a refusal which file it is about and what to do; always on where the standard error is a terminal'
complete -c textpeer -n '__textpeer_does load; and not __fish_contains_opt -s h help' -s h -l help -d 'Print help'
complete -c textpeer -n __fish_use_subcommand -a recover -d 'Makes a journal of all that can be had of a damaged one, and says how many changes that is and which bytes gave none'
complete -c textpeer -n '__textpeer_does recover; and test (__textpeer_place) -eq 1' -F
complete -c textpeer -n '__textpeer_does recover; and test (__textpeer_place) -eq 2' -F
complete -c textpeer -n '__textpeer_does recover; and not __fish_contains_opt with' -l with -x -d 'another file whose whole changes enter too, once for each: what was cut off, or a copy of the journal'
complete -c textpeer -n '__textpeer_does recover; and not __fish_contains_opt texts' -l texts -d 'makes no journal, and prints what the whole changes inserted, in their order: a last resort'
complete -c textpeer -n '__textpeer_does recover; and not __fish_contains_opt explain' -l explain -d 'adds below a refusal which file it is about and what to do; always on where the standard error is a terminal'
complete -c textpeer -n '__textpeer_does recover; and not __fish_contains_opt -s h help' -s h -l help -d 'Print help'
complete -c textpeer -n __fish_use_subcommand -a show -d 'Prints the text that a log of changes makes'
complete -c textpeer -n '__textpeer_does show; and test (__textpeer_place) -eq 1' -F
complete -c textpeer -n '__textpeer_does show; and not __fish_contains_opt explain' -l explain -d 'adds below a refusal which file it is about and what to do; always on where the standard error is a terminal'
complete -c textpeer -n '__textpeer_does show; and not __fish_contains_opt -s h help' -s h -l help -d 'Print help'
complete -c textpeer -n __fish_use_subcommand -a simulate -d 'Runs a script of peers that edit, exchange and crash, and prints a line for each line of it'
complete -c textpeer -n '__textpeer_does simulate; and test (__textpeer_place) -eq 1' -F
complete -c textpeer -n '__textpeer_does simulate; and not __fish_contains_opt explain' -l explain -d 'adds below a refusal which file it is about and what to do; always on where the standard error is a terminal'
complete -c textpeer -n '__textpeer_does simulate; and not __fish_contains_opt -s h help' -s h -l help -d 'Print help'
complete -c textpeer -n __fish_use_subcommand -a serve -d 'Serves a journal: prints `listening PORT` once it listens, then holds sessions until it is ended'
complete -c textpeer -n '__textpeer_does serve; and test (__textpeer_place) -eq 1' -F
complete -c textpeer -n '__textpeer_does serve; and not __fish_contains_opt sessions' -l sessions -x -d 'how many sessions are held; then it ends. If left out it serves until it is ended'
complete -c textpeer -n '__textpeer_does serve; and not __fish_contains_opt workers' -l workers -x -d 'how many sessions are held at once, 1 to 64; with 64 they are 63 [default: 2]'
complete -c textpeer -n '__textpeer_does serve; and not __fish_contains_opt patience' -l patience -x -d 'how many seconds the other side may say nothing before its session ends, up to 86400; for ever if 0 [default: 30]'
complete -c textpeer -n '__textpeer_does serve; and not __fish_contains_opt verbose' -l verbose -d 'prints a line on the standard error for each session as it ends'
complete -c textpeer -n '__textpeer_does serve; and not __fish_contains_opt mirror' -l mirror -x -d 'keeps this text file and FILE in step meanwhile, as mirror does'
complete -c textpeer -n '__textpeer_does serve; and not __fish_contains_opt take' -l take -x -d 'which text counts at the first use, where the two differ: text, and the journal'\''s stays in its history; or journal, and NOTE'\''s is kept as NOTE.before'
complete -c textpeer -n '__textpeer_does serve; and not __fish_contains_opt wait' -l wait -x -d 'how many seconds to wait for FILE'\''s lock where another program has it, up to 86400; not at all if 0 [default: 5]'
complete -c textpeer -n '__textpeer_does serve; and not __fish_contains_opt key' -l key -x -d 'the seed of the random numbers, in 64 hexadecimal digits; from /dev/urandom if left out. It encrypts nothing'
complete -c textpeer -n '__textpeer_does serve; and not __fish_contains_opt explain' -l explain -d 'adds below a refusal which file it is about and what to do; always on where the standard error is a terminal'
complete -c textpeer -n '__textpeer_does serve; and not __fish_contains_opt -s h help' -s h -l help -d 'Print help'
complete -c textpeer -n __fish_use_subcommand -a sync -d 'Exchanges changes with a server of the document, and prints how many entered here'
complete -c textpeer -n '__textpeer_does sync; and test (__textpeer_place) -eq 1' -F
complete -c textpeer -n '__textpeer_does sync; and not __fish_contains_opt follow' -l follow -d 'goes on with one session after another, SECONDS apart, 1 to 86400; 5 if none are given'
complete -c textpeer -n '__textpeer_does sync; and not __fish_contains_opt sessions' -l sessions -x -d 'with --follow: how many sessions are held; then it ends. If left out it goes on until it is ended'
complete -c textpeer -n '__textpeer_does sync; and not __fish_contains_opt patience' -l patience -x -d 'how many seconds the other side may say nothing before its session ends, up to 86400; for ever if 0 [default: 30]'
complete -c textpeer -n '__textpeer_does sync; and not __fish_contains_opt mirror' -l mirror -x -d 'goes on as with --follow, and brings this text file and FILE in step before each session, as mirror does'
complete -c textpeer -n '__textpeer_does sync; and not __fish_contains_opt take' -l take -x -d 'which text counts at the first use, where the two differ: text, and the journal'\''s stays in its history; or journal, and NOTE'\''s is kept as NOTE.before'
complete -c textpeer -n '__textpeer_does sync; and not __fish_contains_opt wait' -l wait -x -d 'how many seconds to wait for FILE'\''s lock where another program has it, up to 86400; not at all if 0 [default: 5]'
complete -c textpeer -n '__textpeer_does sync; and not __fish_contains_opt key' -l key -x -d 'the seed of the random numbers, in 64 hexadecimal digits; from /dev/urandom if left out. It encrypts nothing'
complete -c textpeer -n '__textpeer_does sync; and not __fish_contains_opt explain' -l explain -d 'adds below a refusal which file it is about and what to do; always on where the standard error is a terminal'
complete -c textpeer -n '__textpeer_does sync; and not __fish_contains_opt -s h help' -s h -l help -d 'Print help'
complete -c textpeer -n __fish_use_subcommand -a session -d 'Holds one session over the standard input and output, and says on the standard error how many changes entered here. It waits for the other side without a time limit'
complete -c textpeer -n '__textpeer_does session; and test (__textpeer_place) -eq 1' -F
complete -c textpeer -n '__textpeer_does session; and not __fish_contains_opt client' -l client -d 'holds the client'\''s side; the server'\''s if left out'
complete -c textpeer -n '__textpeer_does session; and not __fish_contains_opt wait' -l wait -x -d 'how many seconds to wait for FILE'\''s lock where another program has it, up to 86400; not at all if 0 [default: 5]'
complete -c textpeer -n '__textpeer_does session; and not __fish_contains_opt key' -l key -x -d 'the seed of the random numbers, in 64 hexadecimal digits; from /dev/urandom if left out. It encrypts nothing'
complete -c textpeer -n '__textpeer_does session; and not __fish_contains_opt explain' -l explain -d 'adds below a refusal which file it is about and what to do; always on where the standard error is a terminal'
complete -c textpeer -n '__textpeer_does session; and not __fish_contains_opt -s h help' -s h -l help -d 'Print help'
complete -c textpeer -n __fish_use_subcommand -a web -d 'Serves a journal as a web page, in whose windows several people write: prints its address, and goes on until it is ended'
complete -c textpeer -n '__textpeer_does web; and test (__textpeer_place) -eq 1' -F
complete -c textpeer -n '__textpeer_does web; and not __fish_contains_opt serve' -l serve -x -d 'serves the journal beside the page too, at this address, as IP:PORT or HOST:PORT, and prints the port'
complete -c textpeer -n '__textpeer_does web; and not __fish_contains_opt follow' -l follow -x -d 'exchanges changes each second with the server at this address, as IP:PORT or HOST:PORT'
complete -c textpeer -n '__textpeer_does web; and not __fish_contains_opt mirror' -l mirror -x -d 'keeps this text file and FILE in step meanwhile, as mirror does'
complete -c textpeer -n '__textpeer_does web; and not __fish_contains_opt take' -l take -x -d 'which text counts at the first use, where the two differ: text, and the journal'\''s stays in its history; or journal, and NOTE'\''s is kept as NOTE.before'
complete -c textpeer -n '__textpeer_does web; and not __fish_contains_opt wait' -l wait -x -d 'how many seconds to wait for FILE'\''s lock where another program has it, up to 86400; not at all if 0 [default: 5]'
complete -c textpeer -n '__textpeer_does web; and not __fish_contains_opt key' -l key -x -d 'the seed of the random numbers, in 64 hexadecimal digits; from /dev/urandom if left out. It encrypts nothing'
complete -c textpeer -n '__textpeer_does web; and not __fish_contains_opt explain' -l explain -d 'adds below a refusal which file it is about and what to do; always on where the standard error is a terminal'
complete -c textpeer -n '__textpeer_does web; and not __fish_contains_opt -s h help' -s h -l help -d 'Print help'
