# completion of emtp for fish
complete -c emtp -f
set -l commands \
    run 'write the record of a case' \
    show 'print what was read of a case' \
    judge 'say how far a run is off, or print its samples' \
    audit 'compare a record with its case' \
    batch 'run a case under a table of switch times' \
    phasor 'solve a case at the frequency of its sources' \
    scan 'print an impedance over frequencies' \
    trial 'run the trial case' \
    plot 'draw records, scans and batches' \
    compare 'lay a record beside a measured one' \
    convert 'write a record in another form' \
    play 'make sources of a measured record' \
    study 'run tables and values on all processors' \
    ruler 'print the columns of a card' \
    converge 'say what a smaller step changes' \
    lineconst 'compute the constants of a line' \
    atp 'make a case of a deck of ATP' \
    trv 'judge the recovery voltage of a breaker' \
    arrester 'judge an arrester' \
    relay 'judge a relay' \
    ct 'write what current transformers give' \
    locate 'find where a fault was' \
    lsp 'serve an editor'
for at in (seq 1 2 (count $commands))
    complete -c emtp -n __fish_use_subcommand -a $commands[$at] -d $commands[(math $at + 1)]
end
complete -c emtp -n __fish_use_subcommand -l help -d 'print the words'
complete -c emtp -n __fish_use_subcommand -l version -d 'print which program it is'
complete -c emtp -n __fish_use_subcommand -l program -x -a 'emtp emtp_show emtp_judge' -d 'print where a program is'
complete -c emtp -n '__fish_seen_subcommand_from show' -l count -l kinds -l why -l fields
complete -c emtp -n '__fish_seen_subcommand_from judge' -l samples -l count
complete -c emtp -n '__fish_seen_subcommand_from scan' -l at -x
complete -c emtp -n '__fish_seen_subcommand_from run show judge audit batch phasor scan study converge' -k -a '(__fish_complete_suffix .case)'
complete -c emtp -n '__fish_seen_subcommand_from plot compare convert play trv arrester relay ct locate' -k -a '(__fish_complete_suffix .cfg)'
complete -c emtp -n '__fish_seen_subcommand_from ruler' -l comment
complete -c emtp -n '__fish_seen_subcommand_from ruler' -a 'tolerance first second branch series wide line
    arrester reactor nonlinear point switch valve controlled source output block coefficients tacs-source control-source
    formula device table-point'
