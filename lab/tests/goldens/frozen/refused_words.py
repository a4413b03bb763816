"""Words that are refused, each on an input that is in order, so that the words alone are at fault."""
import shlex

from .case import Case

TABLE = """cores = 4
bandwidth_limit = 1000
[[task]]
kind = "lc"
guaranteed = 1
limit = 2
delay = 10
request = 50
[[task]]
kind = "be"
guaranteed = 0
limit = 3
delay = 0
request = 0
"""
OTHER = TABLE.replace("delay = 10", "delay = 40")
ARRIVALS = """caladan-arrivals,1
pass,10,0
pass,20,0
pass,30,0
turn,15
turn,25
turn,35
request,0,0,1,1,3
request,1,1,2,2,0
request,3,0,3,5,0
end,9
"""
# Arrivals of which no request has misses, and such with another number of passes than of turns.
PLAIN = ARRIVALS.replace("1,1,3", "1,1,0")
UNEVEN = ARRIVALS.replace("pass,30,0\n", "").replace("end,9", "end,8")
COMINGS = "id,turn\n1,0\n2,0\n3,0\nleft out,1,2\n"
HISTORY = "caladan-history,2\npass,100,0\n" + "".join(f"busy,{k},0,1,1\n" for k in range(5)) + "end,1\n"
MANY = ",".join(map(str, range(251)))

# What `sweep` says of its words. A word in quotes has blanks, or is empty.
SWEEPS = [
    "", "--seeds 2", "--load", "--load 0", "--load 0.0", "--load 10.001", "--load 1.0001", "--load=-1", "--load -1",
    "--load 1e3", "--load .5", "--load 5.", "--load half", "--load 0.1,x", "--load ''", "--load 0.1,,0.2",
    "--load 0.5,0.5", "--load 0.7,0.5", "--load 0.5,..,0.9", "--load 0.1,0.2,..", "--load ..,0.5", "--load 0.1,..",
    "--load 0.1,0.2,..,0.15", "--load 0.1,0.2,..,0.3,..,0.4 --turns 20", "--load 0.5 --load 0.7", "--offered 0",
    "--offered x",
    "--offered 16.001", "--offered 1.0001", "--offered 0.7,0.5", "--offered 2.001", "--offered 0.5,1,..,3",
    "--task 1 --offered 3.5", "--load 1 --offered 0.7", "--task 0 --task 1 --load 0.5,0.7",
    "--offered 1.5 --vary task.0.limit=1", "--offered 3 --vary task.0.limit=1,2",
    "--task 0 --task 1 --load 0.5,0.7 --load 0.1,0.2", "--task 0 --task 0 --load 0.5 --load 0.7",
    "--task 0 --task 1 --load 0.5 --load 0.6 --load 0.7", "--task 2 --load 0.5", "--task x --load 0.5",
    "--task 18446744073709551615 --load 0.5", "--task 18446744073709551616 --load 0.5", "--task +0 --load 0.5",
    "--names kv,batch --task redis --load 0.5", "--names kv,batch --task 0 --task kv --load 0.5",
    "--load 0.5 --service 0", "--load 0.5 --service 1000001", "--load 0.5 --service 1:2",
    "--load 0.5 --service 90%:1,10%:0", "--load 0.5 --service 90:1,10:20", "--load 0.5 --service 90%:1,,10%:20",
    "--load 0.5 --service 50.0001%:1,49.9999%:2", "--load 0.5 --service 90%:1", "--load 0.5 --service 90%:1,10.5%:20",
    "--load 0.5 --service 3 --service 4", "--load 0.5 --pattern Poisson", "--load 0.5 --pattern bursts",
    "--load 0.5 --pattern bursts:1", "--load 0.5 --pattern bursts:10001", "--load 0.5 --pattern even:2",
    "--load 0.5 --pattern even --pattern even", "--load 0.5 --misses 5x", "--load 0.5 --misses 4294967296",
    "--load 0.5 --misses=-1", "--load 0.5 --misses 1 --misses 2", "--load 0.5 --turns 0", "--load 0.5 --turns 174763",
    "--load 0.5 --turns many", "--load 0.5 --ticks 0", "--load 0.5 --ticks 1000000001", "--load 0.5 --seed -1",
    "--load 0.5 --seed 18446744073709551616", "--load 0.5 --seed 1 --seed 2", "--load 0.5 --turns 9 --turns 9",
    "--load 0.5 --policy fifo", "--load 0.5 --policy=", "--load 0.5 --policy caladan,assured,", "--load 0.5 --pace 0",
    "--load 0.5 --turns 9 --policy caladan,caladan", "--load 0.5 --turns 9 --policy caladan --policy assured",
    "--load 0.5 --pace 65536", "--load 0.5 --beside 1001", "--load 0.5 --memory -1", "--load 0.5 --figure seen",
    "--load 0.001 --turns 174762 --pace 7 --ticks 1", "--load 0.5 --memory 10", "--load 0.5 --misses 0 --memory 10",
    "--load 0.5 --figure shown", "--load 0.5 --misses 0 --figure shown --turns 20",
    "--task 0 --task 1 --load 0.5 --misses 0 --misses 0 --memory 10",
    "--load 0.001 --turns 3 --misses 1 --figure shown",
    "--load 0.5 --vary task.0.delay", "--load 0.5 --vary cores=2,4 --vary task.0", "--load 0.5 --vary task.0.delay=1,x",
    "--load 0.5 --vary task.9.delay=1", "--load 0.5 --vary cores=4 --vary task.0.delay=1 --vary cores=6",
    "--load 0.5 --names kv,batch --vary task.0.delay=1 --vary kv.delay=2", f"--load 0.5 --vary cores=2,4,6,8 --vary "
    f"task.0.delay={MANY}", "--load 0.5 --vary cores=4,3", "--load 0.5 --vary task.0.limit=0,1",
    "--load 0.5 --vary cores=2,4 --vary task.0.guaranteed=1,3", "--load 0.5 --vary task.1.guaranteed=1",
    "--load 0.5 --vary bandwidth_limit=-1", "--load 0.5 --vary task.0.kind=lc", "--load 0.5 --vary task.0.request=1.5",
    "--load 0.5 --vary colour=1", "--load 0.5 --vary task.0.delay=", "--load 0.5 --vary",
    "--load 0.5 --names kv,batch --vary redis.limit=1", "--load 0.5 --slo task.1.p99=5",
    "--load 0.5 --slo task.0.p98=5",
    "--load 0.5 --slo task.0.p99", "--load 0.5 --slo task.0.p99=5x", "--load 0.5 --slo task.+0.p99=5",
    "--load 0.5 --slo task.0.p99=18446744073709551616", "--load 0.5 --slo p99=5", "--load 0.5 --slo ''",
    "--load 0.5 --names kv,batch --slo redis.p99=5", "--load 0.5 --slo kv.p99=5",
    "--load 0.5 --turns 9 --slo task.0.p99=1000 --slo task.0.max=0 --slo task.1.p50=5", "--load 0.5 --cheapest",
    "--load 0.5 --from 90 --to 10", "--load 0.5 --from 900", "--load 0.5 --to 100", "--load 0.5 --to 1001",
    "--load 0.5 --turns 9 --from 10", "--load 0.5 --from +1", "--load 0.5 --to 0", "--load 0.5 --from 5 --to 5",
    "--load 0.5 --seeds 0", "--load 0.5 --seeds 1001", "--load 0.5 --seeds=-1", "--load 0.5 --seeds 1,2",
    "--load 0.5 --seed 18446744073709551614 --seeds 3", "--load 0.5 --seeds", "--load 0.5 --seeds 2 --seeds 3",
    "--load 0.5 -j 0", "--load 0.5 -j x", "--load 0.5 -j 9223372036854775808", "--load 0.5 --names kv",
    "--load 0.5 --names kv,batch,reads", "--load 0.5 --names kv,", "--load 0.5 --names ''",
    f"--load 0.5 --names kv,{'a' * 41}", "--load 0.5 --names 'k\tv,batch'", "--load 0.5 --tick m",
    "--load 0.5 --tick ns --tick us", "--load 0.5 --picture", "--load 0.5 --loads 1", "--load 0.5 --seede 1",
    "--load 0.5 --table",
    "--load 0.5 --summary", "--load 0.5 --came came.csv", "--load 0.5 --log log.csv --unit us --turn 10us",
    "--load 0.5 --arrivals arrivals.csv", "--load 0.5 --write-input 0", "--load 0.5 one two", "--load 0.5 --csv=yes",
    "--load 0.5 --csv --csv", "--load 0.5 -x", "--load 0.5 -o", "--load 0.5 -o a -o b", "--load 0.5 --quiet --quiet",
    "--load 10 --pattern even --turns 50001", "--load 0.5 --slo task.0.p99=5 --cheapest --cheapest",
]

# What `compare` says of its words; where it reads the standard input it has two tables and their arrivals.
COMPARES = [
    "--write-input x", "--write-input 0 --csv", "--write-input 2", "--write-input 4 --policy caladan,assured",
    "--write-input", "--write-input -1", "--write-input 18446744073709551615", "--write-input 18446744073709551616",
    "--write-input 0 --write-input 1", "--vary", "--vary task.0.delay", "--csv --vary cores",
    "--vary cores=2 --vary limit",
    "a.toml b.toml", "--arrivals arrivals.csv", "--arrivals arrivals.csv a.toml b.toml --vary cores=2",
    "--arrivals arrivals.csv a.toml b.toml --vary cores", "--arrivals", "--arrivals - -", "--arrivals - a.toml -",
    "--arrivals arrivals.csv - -", "--arrivals arrivals.csv - --came -", "--came -", "run --came - --arrivals -",
    "--came", "--came came.csv --came came.csv", "--from x", "--from -1", "--to 18446744073709551616",
    "--from 3", "--to 0", "--from 1 --to 1", "--from 2 --to 1", "--came none.csv", "--came folder", "--came bad.csv",
    "--policy fifo", "--policy caladan,fifo", "--policy=", "--policy caladan,caladan",
    "--policy caladan --policy assured",
    "--pace 0", "--pace 65536", "--pace x", "--beside 1001", "--beside -1", "--memory -1", "--memory x",
    "--memory 18446744073709551616", "--figure seen", "--figure", "--pace 2 --pace 2", "--names kv", "--names a,b,c",
    "--names a,", "--names ''", f"--names a,{'b' * 41}", "--names 'a,\tb'", "--names a,b --names a,b", "--tick m",
    "--tick", "--picture", "--seed 1", "--load 0.5", "--slo task.0.p99=5", "--table", "--quiet", "-q", "-j 2",
    "--cheapest", "--csv --csv", "--csv=no", "-o", "-o a -o b", "--varys cores=2", "--write 1", "--polcy caladan",
]

# What `compare` says of values of one table; the standard input has one, and its arrivals.
VARIED = [
    "--vary cores=4,3,1", "--vary cores=2,130", "--vary bandwidth_limit=0,-1", '--vary task.0.kind="lc","be"',
    "--vary task.0.kind=lc", '--vary task.0.kind="LC"', "--vary task.0.guaranteed=2,3", "--vary task.0.request=1.5",
    "--vary task.0.delay=", "--vary task.0.delay=1,,2", "--vary task.0.delay=1000000000001", "--vary task.2.delay=1",
    "--vary task.00.delay=1", "--vary task.0.colour=1", "--vary delay=1", "--vary =1", "--vary cores=2 --vary cores=4",
    "--names kv,b --vary task.0.delay=1 --vary cores=2 --vary kv.delay=2", "--vary task.1.limit=17", "--vary task.1=1",
    f"--csv --vary cores=2,4,6,8 --vary task.0.delay={MANY}", "--vary cores=2,4 --vary task.0.guaranteed=1,3",
    '--vary task.0.kind="be" --vary task.0.delay=10', "--vary cores=2,4 --vary task.2.delay=1",
    "--names kv,b --vary kv.limit=1,0", "--names kv,b --vary redis.limit=1", "--vary task.1.guaranteed=1",
    "--vary task.0.limit=1,2 --write-input 2", "--vary task.0.guaranteed=2 --vary cores=2 --vary task.0.limit=1",
    "--vary cores=1_0,'4 # a comment'", "--vary cores=4 --vary 'task.0.delay=1\n2'",
    "--vary task.0.delay=9223372036854775808",
    "--vary task.0.limit=1,2 --came bad.csv", "--vary cores=2,4 --from 7",
]

# What `timeline` says of its words; the standard input has a table and arrivals.
TIMELINES = [
    "--policy fifo", "--policy caladan,assured", "--policy=", "--pace 0", "--pace 65536", "--beside 1001",
    "--memory -1",
    "--figure seen", "--names kv", "--names a,b,c", "--names ,", f"--names a,{'b' * 41}", "--tick m", "--tick",
    "--csv", "--from 1", "--came came.csv", "--vary cores=2", "--picture", "one two", "-o", "--names a,b --names a,b",
    "--pace 2 --pace 3", "--name a,b", "--table", "-x",
]


def words_of(line: str) -> "list[str]":
    return shlex.split(line.replace('"', '\\"'))


def files_of(line: str) -> "tuple[dict[str, str], tuple[str, ...]]":
    """The files that words name."""
    texts = {"a.toml": TABLE, "b.toml": OTHER, "arrivals.csv": ARRIVALS, "came.csv": COMINGS,
             "bad.csv": "id,turn\n1,0\n2,2\n3,0\n", "run": f"{TABLE}---\n{OTHER}---\n{ARRIVALS}"}
    words = words_of(line)
    return {name: text for name, text in texts.items() if name in words}, ("folder",) if "folder" in words else ()


def of_words(name: str, word: str, line: str, given: str) -> Case:
    files, folders = files_of(line)
    return Case(name, (word, *words_of(line)), given, files=files, folders=folders)


def cases() -> "list[Case]":
    two, one = f"{TABLE}---\n{OTHER}---\n{ARRIVALS}", f"{TABLE}---\n{ARRIVALS}"
    made = [of_words(f"sweep-words-{n:03}", "sweep", line, TABLE) for n, line in enumerate(SWEEPS)]
    made += [of_words(f"compare-words-{n:03}", "compare", line, two) for n, line in enumerate(COMPARES)]
    made += [of_words(f"compare-varied-{n:03}", "compare", line, one) for n, line in enumerate(VARIED)]
    made += [of_words(f"timeline-words-{n:03}", "timeline", line, one) for n, line in enumerate(TIMELINES)]
    return made
