"""What the long help of each word says below its options."""

COMPARE = """\
Input: task tables (TOML), each ended by the line ---, and after the last of
these lines arrivals (CSV). With --arrivals each other file is a task table, and
the named one has the arrivals, and no table; no line --- is needed.
Output: the numbers that `caladan_view measure` gives of each table's
run on the arrivals, a column for each table; beside each column but the first
its change from the first; with --csv as CSV. A missing task, and a change that
cannot be computed, is shown as a dash. Several files of tables name their
columns, each after as many of its folders as tell it apart.
With --vary the input is that of `measure`, or one table with --arrivals, and
there is a column for each value: the table with that value at the key. Keys are
cores, bandwidth_limit, and of task 1 task.1.kind, task.1.guaranteed,
task.1.limit, task.1.delay and task.1.request; of --names a name may stand for a
task, as in --vary memcached.limit=2,4; without --names a word in a comment, as
in [[task]] # memcached. Write a value as in a table, or with --tick a time, as
10us; 10,20,..,80 goes on in equal steps. To keep the given table among the
columns, name its own value, best as the first. Several
--vary make all combinations, at most 1000; the first key changes slowest.
With several policies each table has a column for each of them.
The arrivals are for the first table, or for the one that is varied. In each
other table a request stays with its task, on the thread of the same number
among the task's, modulo the limit. Where another has taken its turn there, it
comes before the next free one, and still counts from its own; where none is
left it is left out. Two rows count these and those moved by more than one turn,
where there are some. --write-input N writes table N and the arrivals that it
gets, which `measure` reads. --came is as in `measure`; the file is of the
arrivals as given.
Times are of the requests that came in the middle of the run: all but the first
and the last tenth of its turns, or from --from on, and before --to. With
--window whole they are of all requests, as in `measure`. Where the request at a
rank was not answered, > stands before the least that its time can be, by how
long each has waited so far.
With --pace, --beside, --memory or --figure the runs are like a machine:
docs/VIEWER.md, "Runs like a machine".
Exit status: 0 done, 2 rejected input, 3 memory or output was refused. A table
that is refused, or that the arrivals do not fit, is named by its number, from
0, or by its values.

To try it:

caladan_lab compare <<'END'
cores = 2
bandwidth_limit = 1000
[[task]]
kind = "lc"
guaranteed = 1
limit = 1
delay = 10
request = 50
---
cores = 2
bandwidth_limit = 1000
[[task]]
kind = "lc"
guaranteed = 1
limit = 1
delay = 30
request = 50
---
caladan-arrivals,1
pass,100,0
pass,120,0
pass,140,0
turn,105
turn,125
turn,145
request,0,0,1,1,0
request,0,2,2,1,0
end,8
END

It writes:

measure                             table 0  table 1  change table 1
task 0 requests given                     2        2               0
task 0 requests served                    2        1              -1
task 0 requests left                      0        1              +1
task 0 served in a tick               0.050    0.025          -0.025
task 0 response least                     0       40             +40
task 0 response median                    0       40             +40
task 0 response 90 of 100                40      >40               -
task 0 response 99 of 100            40 (2)  >40 (2)               -
task 0 response 99.9 of 100          40 (2)  >40 (2)               -
task 0 response greatest                 40      >40               -
task 0 response mean                 20.000  >20.000               -
task 0 wait least                         0       40             +40
task 0 wait median                        0       40             +40
task 0 wait 90 of 100                    20       40             +20
task 0 wait 99 of 100                20 (2)   40 (1)             +20
task 0 wait 99.9 of 100              20 (2)   40 (1)             +20
task 0 wait greatest                     20       40             +20
task 0 service least                      0        0               0
task 0 service median                     0        0               0
task 0 service 90 of 100                 20        0             -20
task 0 service 99 of 100             20 (2)    0 (1)             -20
task 0 service 99.9 of 100           20 (2)    0 (1)             -20
task 0 service greatest                  20        0             -20
task 0 slowdown least                 2.000        -               -
task 0 slowdown median                2.000        -               -
task 0 slowdown 90 of 100             2.000        -               -
task 0 slowdown 99 of 100         2.000 (1)        -               -
task 0 slowdown 99.9 of 100       2.000 (1)        -               -
task 0 slowdown greatest              2.000        -               -
task 0 oldest pending                     -        0               -
task 0 thefts                             0        0               0
task 0 suspensions                        0        0               0
task 0 share worked                   1.000        -               -
task 0 grants sibling                     0        0               0
task 0 grants recently used               0        0               0
task 0 grants other idle                  1        1               0
task 0 lost to bans                       0        0               0
task 0 lost to bandwidth                  0        0               0
task 0 lost to tasks                      0        0               0
task 0 taken from others                  0        0               0
task 0 cap cuts                           0        0               0
task 0 cap raises                         0        0               0
task 0 bans                               0        0               0
task 0 most cores held                    1        1               0
task 0 mean cores held                0.500    0.000          -0.500
task 0 mean cores being left          0.000    0.000               0
task 0 share congested                0.500    0.000          -0.500
machine held                          0.250    0.000          -0.250
machine leaving                       0.000    0.000               0
machine banned                        0.000    0.000               0
machine free                          0.750    1.000          +0.250
machine over its bandwidth limit      0.000    0.000               0
machine clock of passes                  40       40               0
machine clock of requests                40       40               0"""

SWEEP = """\
Input: a task table (TOML); what follows a line --- is not read.
Output: a row for each load: the task's response in clock ticks, at four ranks
and in the mean; how many requests came, were later, by more than one turn
(far) or left out, as in `arrivals --summary`, and were served; the cores that
the task held in the mean; and the share of the machine that best-effort tasks
held. Each run is on the arrivals that `arrivals` makes with these options. Its
numbers are those of `measure`, but that responses count from when requests
came, also where these come at a later turn, and are of those that came in the
turns of a window. One task has the loads; each other --task has one. --rate has
them in requests a second, by the length of a turn, in place of cores.
With --vary there is a row for each value, or for each combination of several
--vary, as in `compare`, on arrivals made for that table; with --offered on the
same requests for all, drawn for the greatest limit, each at its thread modulo
the table's, and later if its turn is taken. With several policies there is a
row for each. --seeds N runs each load with N seeds: for each row there are
three, the least, the median and the greatest of each column by itself; of an
even number the lower median. A fourth says, for all tables but the first, with
how many seeds the table beats the first: by a shorter time, or more served.
With --by-seed there is a row for each seed in their place. `caladan_lab seeds`
draws both.
--slo is an objective for a task: p50, p90, p95, p99, p99.9 or max, in ticks, or
with --tick as 250us. It is kept where at least ten requests lie beyond its
rank: some 1,000 requests for p99. It is missed where at least ten took longer,
or have waited longer so far, and where requests of the task that came before
the end of the window are left out; with --offered, those of any task. Else it
is undecided, and the line says how many more turns would do. It is undecided
too where the response grows from the first half of the window to the second by
more than chance, or as much work comes as the threads of its task can do, since
it has no ranks then. max is of the requests that came,
and says nothing of others. Of several seeds one is enough to miss it, else to
leave it undecided; if all of ten keep it, another does with a chance of 0.741
or more, at 95 in 100. For one seed to say at 95 in 100 that p99 is kept takes
299 independent requests that all keep it, and p99.9 takes 2,995; requests in a
queue are not independent, so take more. --rules 4 judges as version 4 did.
There may be several: where they are of several tasks, each of these has rows.
Of --names a name may stand for a task, as in --slo memcached.p99=65; without
--names a word in a comment of the table, as in [[task]] # memcached.
--cheapest lists below the table, for each load, what keeps every objective:
first what leaves the greatest share to best effort, of several seeds in the
median.
With --pace, --beside, --memory or --figure the runs are like a machine:
docs/VIEWER.md, "Runs like a machine". --memory and --figure shown need requests
with misses, which --misses gives.
Exit status: 0 done, 1 a run of the last load misses an objective, or leaves it
undecided, 2 rejected input or a bad option, which is named, 3 memory or output
was refused.

To try it:

caladan_lab sweep --load 0.3,0.6 --pattern even --turns 20 <<'END'
cores = 2
bandwidth_limit = 1000
[[task]]
kind = "lc"
guaranteed = 1
limit = 1
delay = 10
request = 50
---
END

It writes, with its last two columns below the others:

load   p50  p90     p99   p99.9    mean  came  later  far  left out  served
0.300   30   30  30 (5)  30 (5)  22.000     6      0    0         0       5
0.600   20   30  30 (9)  30 (9)  20.000    12      0    0         0      11

       mean cores  best-effort share
            0.421              0.000
            0.632              0.000"""

TIMELINE = """\
Input: a task table (TOML), the line ---, and a history (CSV), or
arrivals (CSV), as `caladan_sim lockstep` reads.
Output: trace events (JSON), which https://ui.perfetto.dev and
chrome://tracing open. For arrivals they show the run that
`caladan_sim lockstep` makes: its history, each request from arrival to answer,
the turns that worked at it, and arrows from the request to these turns.
With --pace, --beside, --memory or --figure there must be arrivals, and their
run is like a machine: docs/VIEWER.md, "Runs like a machine".
With --commands each slice of a core has the command that says why it began, as
its argument `explain`.
Exit status: 0 done, 2 rejected input, 3 memory or output was refused.

To try it:

caladan_lab timeline > timeline.json <<'END'
cores = 2
bandwidth_limit = 1000
[[task]]
kind = "lc"
guaranteed = 1
limit = 1
delay = 10
request = 50
---
caladan-history,2
pass,111,0
whole,0,1,1,0,0,1,100,0,0,105,0,0
grant,0,0,3
pass,121,0
whole,0,1,2,1,1,0,0,112,0,112,0,0
end,2
END"""
