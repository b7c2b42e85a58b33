"""The designers' tool around the proved model. What decides (reading a policy, running a trace, an extract, partners, which small orders there are) is asked of the proved library
and the proved program; the modules here turn texts into their files and their numbers into words, tables and pictures.

| Module | What it has |
|---|---|
| `cli` | the command line: which commands there are, and the exit statuses |
| `errors` | what ends a command early, with its exit status |
| `formats` | words with their fields, log lines, turn numbers and refusal numbers |
| `policies` | a policy file as a value, its bytes, its caps, covers, home turns and ranks, and the names of its classes |
| `policy_text` | a policy as TOML, read and written |
| `policy_ranges` | the ranges of a policy's numbers, for telling which is out |
| `policy_show` | any file taken apart as a policy file, byte by byte |
| `sign_off` | what a policy means: flows, minimums, caps and home turns, timing, ranks |
| `small_orders` | the legal orders of 1 to 4 classes as policies, run and searched for leaks |
| `walks` | how many classes a walk may try, which hardware must do in one cycle |
| `minimums` | the plan of an epoch, and what minimums and caps do and guarantee, under the rules in force |
| `order_drawing` | the order of a policy as a drawing |
| `clock` | times turned into cycles |
| `toml_text` | TOML texts: the lines of keys, and mistakes told all at once |
| `folders` | a folder with policy.bin and trace.bin |
| `cycle_options` | the options --from and --to |
| `build` | builds the library and the program where they are missing |
| `library` | the proved library |
| `words` | calls, requests, turns and refusals in words |
| `traffic` | what the two traffic texts share, and the trace made of them |
| `traffic_csv` | traffic as CSV, read and written |
| `traffic_streams` | traffic as TOML with streams |
| `trace_words` | a trace in words |
| `draws` | random choices that stay the same |
| `class_sets` | sets of classes that compare notes: as a command line gives them, and how they are called |
| `purge` | what of a trace a set of classes may know |
| `seen` | what a set of classes sees of a run |
| `blind` | two traces side by side: the premise, and two extracts |
| `blind_search` | random sets of classes, and random pairs of traces that agree for a set |
| `history` | a log told from its start on: calls with their cycles, turns, requests, queue lengths, turns left |
| `figures`, `report` | the service figures of runs, and their report as table, CSV and JSON |
| `waveform` | a run as a value change dump, with a GTKWave save file |
| `picture` | a run as a picture |
| `tables` | aligned tables as text |
| `svg` | elements of SVG |
| `lines` | lines of a log as numbers, many at a time |
| `recorded` | a recorded log of a hardware block, in its two forms |
| `streak` | the model's log against a recorded one |
| `ledger` | the comparisons so far, and the streak |
| `lab_recordings` | a lab's recordings of activates on the wires and of answers at the cores, in files |
| `partners` | two such recordings held together |
| `stretch` | the two recordings of the model's run, or of a stretch of it |
| `regression` | many folders, each against its expected.txt |
| `commands/` | a module for each command |
"""
