"""ask TASK ROUNDS [--solver WORDS] [--seconds N] [--keep FOLDER] [--jobs N]: a question that may be too hard for the search alone.

First `wfcheck obstruction` looks for an obstruction of the task, and then, with `--covers 1`, for one with a cover. If it finds one, and
`verify` accepts it, the task has no map after any number of rounds, and nothing else is asked. If it finds none, that says nothing about the
task.

Reports that are given by --hint come next. One that `verify` accepts of this task after these rounds is the answer, whoever wrote it.

Then the search is asked about some of the processes alone, the fewest first, in a tenth of the time. If they have no map, the whole has none:
the lines of their refutation are numbered as those of the whole task, and `verify` has to accept that report.

Then the search and a SAT solver are asked side by side, and wfcheck checks what they answer: a report by `verify`, a model by `model` and
then `verify`, a clausal proof that there is no map by `proof`. The first answer that is accepted counts. Beside them the search looks
for a map after fewer rounds than ROUNDS or FIRST, in a tenth of the time: `lift` makes it one after these rounds. You do
not have to trust the solver. You trust this script to hand wfcheck the task that you named, and to pass on its answer.

The last line says what is accepted in this run: `never`; `from R`, a map after R rounds and none after R - 1, or R is 0; `none up to R`,
since a map after fewer rounds would give one after R; `map at R`; or `not decided`. If a number of rounds is refused after others were asked,
the last line says so behind the answer, as in `none up to 2; 3 rounds have too many executions`.

The file of a task is read once, and all is about these bytes. If the file has changed at the end, a line before the last says so.

    TASK       a task file, or the name of one in gallery/tasks. If several are named, each has a last line
    ROUNDS     a number, or FIRST..LAST: each in turn, up to the first with a map
    --solver   cadical, kissat, cryptominisat5 or minisat (the last two write no proofs, and so find maps alone); or a command
               with {formula}, with {proof} if it writes clausal proofs as text, or {hints} if these have hints (LRAT), and with
               {output} if it writes its model to a file; or search, the search alone. Without it: the first of these four that is on the path
    --seconds  the limit for each number of rounds, 60 if it isn't given; the checks are part of it. The obstruction has as much
    --keep     a folder for what was accepted: the obstruction (TASK.obstruction), the solver's proof (.drat, or .lrat with hints), its model (.said or .out)
               and the report of that (.map), the search's report (.report), or that of a map of fewer rounds (.lifted). Nothing that is
               there is written over: the next free name is taken
    --show     prints what was accepted: a map as rules, or as points if it has no few rules, and else the argument why there is none
    --table    a file to which a line is appended for each number of rounds that was asked, and one for `never`, with tabs between the task, the
               rounds, the answer, the kind, bytes and SHA-256 of its certificate, and the seconds; before the first a line of these names
    --no-obstruction
               looks for no obstruction
    --no-restrict
               asks about no smaller set of processes
    --hint     a report that may be the answer, as of another run or of another program; it may be given several times. A report that `verify`
               refuses, as one about other rounds, says nothing. Not with branches or cases
    --clauses  a formula with more clauses is not shown to a solver; 20 million if it isn't given
    --memory   how many GB of memory each process gets that is started, 4 if it isn't given
    --disk     how many GB each file may have that a process writes, 4 if it isn't given

With --jobs an obstruction is looked for first, too. If none is accepted, the question of one number of rounds is cut into its branches,
as `wfcheck branches` lists them. So many solvers at once are each asked about one, or so many searches, by `--solver search` or
where no solver is on the path. Branches above one with a map are not asked. `wfcheck proof --branch` checks a proof, and
`wfcheck verify --branch` what a search says of its branch, or a solver's model.

What is accepted of a branch stays in the folder of --keep, with a note: a run that was cut off, as by Ctrl-C, goes on where it was when
it is begun again by the same words. Several runs may share a folder. Where the lines of a search are more than `verify` reads, its
answer is asked for by itself, and is told as `without lines`: --recheck can't check it again, and says so.

Where no branch has a map there is none. Where the search wrote the part of each branch, `wfcheck join` puts them together to the report
of the whole, which is left in the folder.

    --jobs     how many branches are asked at once; --seconds is then the limit for each of them
    --share    K/N: the branches I with I mod N = K alone, so that N machines share the work
    --branch   this branch alone, as a job of an array does
    --array    prints the script of such an array for slurm, pbs, sge, lsf or kubernetes, with so many jobs as --jobs says, or 16. Each asks
               a share of the branches
    --tally    FOLDER: what is noted there, and which branches are missing; nothing is asked
    --recheck  FOLDER: has all proofs and parts that are noted there accepted again

Both have the folder's obstruction of the task, TASK.obstruction, accepted again first.

With --split the solver is asked about cases. In each case one point has one of its candidates: the values that no clause of the question
excludes by itself, which in a branch are the branch's. So many cases are asked at once as --jobs says. --seconds is the limit for each; the
check of the whole has as much time as all cases together. A map of one case decides the question. If all cases are refuted, one proof is
composed of their proofs, and `wfcheck proof` checks it as any other. The solver has to write DRAT proofs as text; LRAT is not read.

    --split    POINT: cuts the question, or with --branch that branch, into the cases of this point, by its number; `auto` is the point with
               most candidates, and of several the first

The proofs of refuted cases stay in the folder of --keep (.case), until the whole is accepted. A run that is begun again asks about the other
cases alone. If the whole is refused, it is tried once more without its deletions. Then the proof of the case at fault is taken away, and
nothing is noted.

A note is trusted while the file that it names is there, with the SHA-256 that it names. What was not checked in this run is told as
noted; after --recheck nothing is.

The status is 0 for a map, 1 for none and for never, 2 for words or a question that are refused, 3 for a question that was not decided, 130
where it was cut off. With several tasks it is 0 if each is decided, and else 130, 2 or 3. With --branch or --share it is 0 where these branches are decided, for a map, none or never, and 3 where they are not. It
needs the program: what the variable WFCHECK names, else bin/wfcheck, as `make build` leaves it, else release/wfcheck, else wfcheck on the
path. If it is release/wfcheck, a line on standard error says so."""
