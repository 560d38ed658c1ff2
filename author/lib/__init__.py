"""Holds the commands for authors: a module or a package for each, and what they share.

Commands: adapt, files, holdout, landscape, scores, seek, series, spread, study, vary, warrior.

start            how a command begins, as any Python 3 can read
endings          how it ends
words            parsers, with what several commands have
program          how `cwtune` is found and run, and the rules
writing          files that are written whole or not at all
own_folder       the folder of a long work
regular          files that may be anything
schema           JSON by a schema
cert_inputs      CERT.inputs, which says what a certificate is for
watching         how far a long loop is
gain             points in fresh fights, gains, and the standard error of a mean
grid             range lines, and settings of any number
tuning_files     templates, schedules and certificates
openings         the words of `cwtune-vary`
places           what can be opened in a text
slots            how a template keeps the author's lines
put_back         how a text that was adapted gets the values
traced           text that knows where it comes from

pmars            Redcode as pMARS reads it
pmars.tokens     tokens
pmars.values     expressions
pmars.text       labels, EQU, FOR and assertions
pmars.code       the load file
pmars.program    pMARS itself, run to compare

adapt            `cwtune-adapt`, and how commands adapt a text by themselves
adapt.changes    what has to be written otherwise
adapt.counts     how CURLINE is written
adapt.passes     the changes made, pass by pass

race             a race: rounds, heats, final, gain
race.settings    new settings
race.model       what they are guessed to make
race.fights      the fights, and the budget
race.words       its options
race.hosts       what hosts play ahead, by job.sh
race.journal     the file of what was played

spread           `cwtune-spread`: parts and shares, and the end of them
spread.words     its options
spread.folder    the folder of its jobs
spread.parts     the jobs of a tuning
spread.shares    the jobs of a check
spread.jobs      jobs on this host
spread.hosts     jobs on other hosts, by job.sh
spread.progress  how far they are
spread.report    the parts put together

study            `cwtune-study`: the stages
study.inputs     its words and files
study.folder     its folder, the stages that are done and their commands
study.fresh      the fresh fights of a template that is tuned whole
study.raced      the stages of one that is too large for that
study.result     the numbers of report.json
study.report     the page of these
study.charts     bars and lines
study.maps       totals as lines and maps
study.page       pieces of a page, in the styles of style.css

Where nothing else is said, a name means this:

- `setting`: the index of a setting, or in `race` its `values`, which are one for each constant;
- `ranges`: the values that each constant may have; `whole`: those of one; `constant`: its index;
- `cert`: a certificate, or its path in `args`, which are the words of a command once parsed;
- `completed`: a run of a program that has ended;
- `number` in `spread`, `race.hosts` and `study.fresh`: which part, share or heat, from 1;
- `piece`: a part or a share, and of a race some settings in some blocks.
"""
