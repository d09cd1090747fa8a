# Completions of streamjob for fish. scripts/command_line makes this file of the program's help.
complete -c streamjob -f
complete -c streamjob -n __fish_use_subcommand -a run -d 'Run a plan on an input and print its rows'
complete -c streamjob -n __fish_use_subcommand -a simulate -d 'Run a job in legs by an order of steps that you choose, and print its rows'
complete -c streamjob -n __fish_use_subcommand -a leg -d 'Run one leg of a job at a scale and print its rows'
complete -c streamjob -n __fish_use_subcommand -a import -d 'Write an input of a plan from CSV or NDJSON files'
complete -c streamjob -n __fish_use_subcommand -a split -d 'Write an input in parts, for as many jobs'
complete -c streamjob -n __fish_use_subcommand -a cuts -d 'Print how far the partitions of an input go, or a cut of it'
complete -c streamjob -n __fish_use_subcommand -a layout -d 'Print the stages, edges, partitions and key groups of a plan at a scale'
complete -c streamjob -n __fish_use_subcommand -a check -d 'Print the places at which a plan, an input or a scale is refused'
complete -c streamjob -n __fish_use_subcommand -a export -d 'Print the rows of a plan as a table, with times, names and decimals'
complete -c streamjob -n __fish_use_subcommand -a diff -d 'Print what changed between two texts of rows'
complete -c streamjob -n __fish_use_subcommand -a rows -d 'Print the rows of several texts as one'
complete -c streamjob -n __fish_use_subcommand -a show -d 'Print what a savepoint holds'
complete -c streamjob -n __fish_use_subcommand -a group -d 'Print the key group of a key and the subtask that owns the group'
complete -c streamjob -n __fish_use_subcommand -a explain -d 'Print what a refusal means, a text that gives it, and what to do'
complete -c streamjob -n __fish_use_subcommand -a version -d 'Print the version of the program and of its toolchain'
complete -c streamjob -n __fish_use_subcommand -a help -d 'Print the help of a command'
complete -c streamjob -n '__fish_seen_subcommand_from help' -a 'run simulate leg import split cuts layout check export diff rows show group explain version'
complete -c streamjob -s h -l help -d 'Print help'
complete -c streamjob -n '__fish_seen_subcommand_from run' -F
complete -c streamjob -n '__fish_seen_subcommand_from run' -l parallelism -r -d 'How many subtasks each operator has, 1 to 64 (1); a source no more than partitions; not with LEGS' -f
complete -c streamjob -n '__fish_seen_subcommand_from run' -l receipt -r -d 'File to write the receipt to, which tells of what was read and printed; not with LEGS' -F
complete -c streamjob -n '__fish_seen_subcommand_from run' -l names -r -d 'File of the table of names, of which the receipt tells too' -F
complete -c streamjob -n '__fish_seen_subcommand_from simulate' -F
complete -c streamjob -n '__fish_seen_subcommand_from leg' -F
complete -c streamjob -n '__fish_seen_subcommand_from leg' -l from -r -d 'File of the savepoint to go on from' -F
complete -c streamjob -n '__fish_seen_subcommand_from leg' -l saves -r -d 'Cuts at which the leg takes savepoints on its way, with + between them, and goes on' -f
complete -c streamjob -n '__fish_seen_subcommand_from leg' -l stop -r -d 'Cut to stop at; without it the leg goes to the end of the input' -f
complete -c streamjob -n '__fish_seen_subcommand_from leg' -l stop-file -r -d 'File that stops the leg where it is, once it is there; with --save, and without --stop and --saves' -F
complete -c streamjob -n '__fish_seen_subcommand_from leg' -l save -r -d 'File to write the savepoint to: that of the stop, or else the last one on the way' -F
complete -c streamjob -n '__fish_seen_subcommand_from leg' -l since -r -d 'Receipt of the leg that left the savepoint: what it tells of has to be as it was; with --from' -F
complete -c streamjob -n '__fish_seen_subcommand_from leg' -l receipt -r -d 'File to write the receipt to, which tells of what was read before the cut, and printed' -F
complete -c streamjob -n '__fish_seen_subcommand_from leg' -l names -r -d 'File of the table of names, of which receipts tell too' -F
complete -c streamjob -n '__fish_seen_subcommand_from import' -F
complete -c streamjob -n '__fish_seen_subcommand_from import' -l names -r -d 'File of the table of names, read where it is there, and written' -F
complete -c streamjob -n '__fish_seen_subcommand_from import' -l bound -r -d 'How far behind the greatest time of earlier entries a record may come; without it, only sources with a bound in the plan have watermarks' -f
complete -c streamjob -n '__fish_seen_subcommand_from import' -l late -r -d 'File to write late records to; without it the first is refused' -F
complete -c streamjob -n '__fish_seen_subcommand_from import' -l rows -r -d 'Most rows of an entry, 1 to 4096 (4096); watermarks stand between entries, so 1 looks at each record' -f
complete -c streamjob -n '__fish_seen_subcommand_from import' -l bad -r -d 'File to write records to that give no row; without it the first of them are told, and nothing is written' -F
complete -c streamjob -n '__fish_seen_subcommand_from import' -l once -r -d 'Fields with commas between: of records that are the same in them the first counts' -f
complete -c streamjob -n '__fish_seen_subcommand_from import' -l twice -r -d 'File to write the others of those to; without it the first is refused' -F
complete -c streamjob -n '__fish_seen_subcommand_from import' -l zone -r -d 'Zone of the times that have none, as Europe/Berlin' -f
complete -c streamjob -n '__fish_seen_subcommand_from import' -l fold -r -d 'Which instant of a time that its clocks show twice or never: first or second; without it the record is bad' -f
complete -c streamjob -n '__fish_seen_subcommand_from import' -l ranges -r -d 'Write N inputs INPUT.0, INPUT.1 .. in place of INPUT, as `split` deals it out' -f
complete -c streamjob -n '__fish_seen_subcommand_from import' -l report -r -d 'File to write to how many records of each file went where' -F
complete -c streamjob -n '__fish_seen_subcommand_from import' -l zones -r -d 'Folder of the time zones (/usr/share/zoneinfo)' -F
complete -c streamjob -n '__fish_seen_subcommand_from import' -l separator -r -d 'What stands between the fields of CSV: one character, or `tab` (,)' -f
complete -c streamjob -n '__fish_seen_subcommand_from import' -l decimal -r -d 'What stands for the point of decimals in CSV: a point or a comma (.)' -f
complete -c streamjob -n '__fish_seen_subcommand_from split' -F
complete -c streamjob -n '__fish_seen_subcommand_from cuts' -F
complete -c streamjob -n '__fish_seen_subcommand_from cuts' -l until -r -d 'A number, or a time in ISO 8601 with its zone, in milliseconds since 1970' -f
complete -c streamjob -n '__fish_seen_subcommand_from layout' -F
complete -c streamjob -n '__fish_seen_subcommand_from check' -F
complete -c streamjob -n '__fish_seen_subcommand_from check' -l scale -r -d 'JSON file of the scale, where no word names it' -F
complete -c streamjob -n '__fish_seen_subcommand_from check' -l from -r -d 'File of the savepoint that a leg is to go on from; with INPUT' -F
complete -c streamjob -n '__fish_seen_subcommand_from check' -l stop -r -d 'Cut that it is to stop at; with INPUT' -f
complete -c streamjob -n '__fish_seen_subcommand_from check' -l save -r -d 'File that its savepoint is to be written to; nothing is written' -F
complete -c streamjob -n '__fish_seen_subcommand_from export' -F
complete -c streamjob -n '__fish_seen_subcommand_from export' -l names -r -d 'File of the table of names' -F
complete -c streamjob -n '__fish_seen_subcommand_from export' -l header -r -d 'Whether the names of the fields stand in front: yes or no (yes)' -f
complete -c streamjob -n '__fish_seen_subcommand_from diff' -F
complete -c streamjob -n '__fish_seen_subcommand_from rows' -F
complete -c streamjob -n '__fish_seen_subcommand_from show' -F
complete -c streamjob -n '__fish_seen_subcommand_from show' -l group -r -d 'Key group, 0 to 32767: print its entries alone; not of a savepoint without an index' -f
complete -c streamjob -n '__fish_seen_subcommand_from group' -f
complete -c streamjob -n '__fish_seen_subcommand_from explain' -f -a 'C1 C2 C3 D1 D2 F1 F2 P1 P2 P3 P4 P5 P6 P7 P8 P9 P10 P11 P12 P13 P14 P15 P17 I1 I2 I3 I4 I5 I6 I7 I8 I9 I10 I12 D3 D4 D5 D6 D7 D8 D9 D10 T1 T2 T3 S1 S2 S3 S4 S5 S6 S7 V1 V2 V3 V4 V5 V7 Q1 Q2 Q3 Q4 Q5 Q6 Q7 Q8 Q9 Q11 Q12 R1 R2 R3 R4 R5 L1 L3 L4 L5 L6 L8 L7 memory'
