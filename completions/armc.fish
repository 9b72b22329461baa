# Completions of armc for fish: commands, options, their values and files. Put it into a folder of completions (install does so).
set -l commands check verify show steps gen migrate back deadlock past checkall
complete -c armc -f
complete -c armc -n "not __fish_seen_subcommand_from $commands" -a check -d 'search for a proof or a run into a bad configuration'
complete -c armc -n "not __fish_seen_subcommand_from $commands" -a verify -d 'judge a certificate'
complete -c armc -n "not __fish_seen_subcommand_from $commands" -a show -d 'print a protocol in its canonical layout'
complete -c armc -n "not __fish_seen_subcommand_from $commands" -a steps -d 'print the configurations to which one step leads'
complete -c armc -n "not __fish_seen_subcommand_from $commands" -a gen -d 'make a chain and check it'
complete -c armc -n "not __fish_seen_subcommand_from $commands" -a migrate -d 'print a certificate in the newer version of its text'
complete -c armc -n "not __fish_seen_subcommand_from $commands" -a back -d 'search from the bad configurations backward'
complete -c armc -n "not __fish_seen_subcommand_from $commands" -a deadlock -d 'search for a run into a configuration from which no rule leads'
complete -c armc -n "not __fish_seen_subcommand_from $commands" -a past -d 'search with states merged by the words that lead into them'
complete -c armc -n "not __fish_seen_subcommand_from $commands" -a checkall -d 'search for each of several named properties'
complete -c armc -n "__fish_seen_subcommand_from check verify show steps migrate back deadlock past checkall" -F
complete -c armc -n "__fish_seen_subcommand_from check" -l method -x -a 'predicates length' -d 'how states are merged'
complete -c armc -n "__fish_seen_subcommand_from check" -l start -x -a 'bad none' -d 'the first predicates'
complete -c armc -n "__fish_seen_subcommand_from check past" -l bound -x -a '0 1 2 4 8 16 32 64' -d 'the first length, 0 to 64'
complete -c armc -n "__fish_seen_subcommand_from check back deadlock past checkall" -l budget -x -a '1000 10000 100000 1000000' -d 'states at which the search ends'
complete -c armc -n "__fish_seen_subcommand_from check" -l report -d 'print the report of the search on standard error'
complete -c armc -n "__fish_seen_subcommand_from check gen back deadlock past checkall" -l workers -x -a '1 2 4 8 16' -d 'threads, 1 to 16'

# The tools.
for option in 'seconds:the time for all of it' 'memory:megabytes for each search' 'jobs:searches at once' 'budget:one budget for all' 'reordered:where a protocol in another order is written'
    complete -c armc-portfolio -l (string split -m1 : $option)[1] -r -d (string split -m1 : $option)[2]
end
complete -c armc-portfolio -l deadlock -d 'search for a configuration from which no rule leads'
complete -c armc-portfolio -l stuck -d 'print what is stuck as bad rows'
for tool in armc-portfolio armc-second-opinion
    complete -c $tool -l but -x -d 'a row of ends that are meant'
end
complete -c armc-portfolio -l one-order -d 'leave the sections in their order'
complete -c armc-portfolio -l first -d 'with --list, the first answer ends the rest'
complete -c armc-check-folder -l memory -r -d 'with --list, megabytes for each search'
for option in 'list:make a folder with a line for each search' 'collect:answer by the results of a list' 'rest:write the lines without a result' 'from:take results out of a text'
    for tool in armc-portfolio armc-check-folder
        complete -c $tool -l (string split -m1 : $option)[1] -r -d (string split -m1 : $option)[2]
    end
end
for option in 'first:the first answer ends the others' 'needs-answer:status 1 without an answer' 'print:print the result'
    complete -c armc-search-one -l (string split -m1 : $option)[1] -d (string split -m1 : $option)[2]
end
for option in 'budget:the largest budget of a search' 'seconds:the time for all of it' 'memory:megabytes for each search' 'jobs:searches at once' 'show:print the certificate of a letter or a rule'
    complete -c armc-coverage -l (string split -m1 : $option)[1] -r -d (string split -m1 : $option)[2]
end
for option in 'budget:of the search' 'seconds:the time of the search' 'width:the longest expression' 'svg:draw into a file' 'html:write a page to look at and step through'
    complete -c armc-explain -l (string split -m1 : $option)[1] -r -d (string split -m1 : $option)[2]
end
complete -c armc-explain -l start -x -a 'bad none' -d 'of the search'
complete -c armc-explain -l why -d 'say from where each rule can fire'
complete -c armc-explain -l plain -d 'draw without Graphviz'
complete -c armc-explain -l states -d 'draw the automaton of the certificate'
complete -c armc-explain -l configurations -d 'draw the automaton of the configurations alone'
for tool in armc-coverage armc-explain
    complete -c $tool -l method -x -a 'predicates length' -d 'of the search'
end
for option in 'random:so many random steps' 'seed:of the random steps' 'letters:begin with so many letters'
    complete -c armc-walk -l (string split -m1 : $option)[1] -r -d (string split -m1 : $option)[2]
end
for option in 'seconds:the time of MONA' 'out:write files into a folder' 'properties:of which the certificate is' 'property:one of them alone'
    complete -c armc-export -l (string split -m1 : $option)[1] -r -d (string split -m1 : $option)[2]
end
complete -c armc-export -l to -x -a 'mona openfst mata dot' -d 'write in this format'
complete -c armc-export -l judge -d 'ask MONA'
complete -c armc-export -l parts -d 'a file for each row and rule'
complete -c armc-export -l rules -d 'the transducers of the rules'
for option in 'budget:the budget of each search' 'seconds:the time of each search' 'jobs:searches at once' 'junit:write a report of JUnit' 'html:write a report as a page'
    complete -c armc-check-folder -l (string split -m1 : $option)[1] -r -d (string split -m1 : $option)[2]
end
for option in 'seconds:the time for all of it' 'memory:megabytes for each search' 'jobs:searches at once' 'budget:the largest budget before the portfolio' 'certificates:write the certificates into a folder'
    complete -c armc-properties -l (string split -m1 : $option)[1] -r -d (string split -m1 : $option)[2]
end
complete -c armc-expand -l check -d 'let the program read what is written'
complete -c armc-expand -l output -r -d 'write into a file'
for tool in armc-portfolio armc-coverage armc-explain armc-walk armc-properties armc-expand armc-export armc-check-folder
    complete -c $tool -l set -x -d 'of a template: a value'
end
for tool in armc-portfolio armc-coverage armc-explain armc-walk armc-properties armc-expand armc-check-folder
    complete -c $tool -l program -r -d 'the program armc'
end
