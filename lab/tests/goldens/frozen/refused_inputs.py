"""Inputs that are refused: tables, arrivals, histories and files of comings, each with one fault."""
from .case import Case
from .refused_words import ARRIVALS, COMINGS, HISTORY, OTHER, PLAIN, TABLE, UNEVEN

TASK = '[[task]]\nkind = "lc"\nguaranteed = 0\nlimit = 16\ndelay = 10\nrequest = 50\n'
ONE = 'cores = 2\nbandwidth_limit = 1000\n[[task]]\nkind = "lc"\nguaranteed = 1\nlimit = 1\ndelay = 10\nrequest = 50\n'


def tables() -> "list[str]":
    """Tables that are none, in all ways that are told apart."""
    made = [TABLE.replace(was, then) for was, then in [
        ("cores = 4", "cores = "), ("cores = 4", "cores = 4 # \udcff"), ("cores = 4", "colour = 1\ncores = 4"),
        ("cores = 4\n", ""), ("cores = 4", 'cores = "4"'), ("cores = 4", "cores = 3"), ("cores = 4", "cores = 4.0"),
        ("cores = 4", "cores = 0"), ("cores = 4", "cores = 130"), ("cores = 4", "cores = -2"),
        ("cores = 4", "core = 4"),
        ("cores = 4", "cores = 4\ncores = 4"), ("cores = 4", "cores = 04"), ("cores = 4", "cores: 4"),
        ("cores = 4", "cores 4"), ("cores = 4", "cores = = 4"), ("cores = 4", "cores = 4,"),
        ("cores = 4", "cores = 4;"),
        ("cores = 4", "cores = four"), ("cores = 4", "cores = true"), ("cores = 4", "limit = 4"),
        ("cores = 4", "cores = [4]"), ("cores = 4", "cores = 1979-05-27"), ("cores = 4", "cores == 4"),
        ("bandwidth_limit = 1000", "bandwidth_limit = 1,000"), ("bandwidth_limit = 1000", "bandwidth_limit = 1e3"),
        ("bandwidth_limit = 1000", "bandwidth_limit = 1000000000001"),
        ("bandwidth_limit = 1000", "bandwith_limit = 1000"),
        ("bandwidth_limit = 1000", "bandwidth_limit = 9223372036854775808"), ('kind = "lc"', "kind = lc"),
        ('kind = "lc"', 'kind = “lc”'), ('kind = "lc"', 'kind = "LC"'), ('kind = "lc"', 'kind = "latency"'),
        ('kind = "lc"', "kind = 1"), ('kind = "lc"', "kind = 'lc"), ('kind = "lc"\n', ""),
        ('kind = "be"', 'kind = "bee"'),
        ("limit = 2", "limits = 2"), ("limit = 2", "limit = 17"), ("limit = 2", "limit = 0"), ("limit = 2\n", ""),
        ("limit = 2", "limit = 2\nname = 'web'"), ("limit = 2", "limit = 2\ncores = 4"), ("limit = 2", "limit = 2 3"),
        ("guaranteed = 1", "guaranteed = 3"), ("guaranteed = 0", "guaranteed = 1"),
        ("guaranteed = 1", "guaranteed = -1"),
        ("delay = 10", "delay = 1000000000001"), ("delay = 10", 'delay = "10"'), ("request = 50", "request = 1.5"),
        ("[[task]]", "[task]"), ("[[task]]", "[[tasks]]"), ("[[task]]", "[[task]"), ("[[task]]", "[[ task ]]\n[["),
        ("[[task]]", "[[Task]]"), ("[[task]]", "task"), ("lc", "l\x00c"), ("\n", "\r"), (TABLE, TABLE * 2),
        (TABLE, "cores = 4\nbandwidth_limit = 1000\n"), (TABLE, "cores = 4\nbandwidth_limit = 1000\ntask = []\n"),
        (TABLE, "cores = 4\nbandwidth_limit = 1000\ntask = [1]\n"),
        (TABLE, "cores = 4\nbandwidth_limit = 1000\ntask = 1\n"),
        (TABLE, "cores = 2\nbandwidth_limit = 1000\n" + 9 * TASK),
        (TABLE, "cores = 2\nbandwidth_limit = 1000\n" + 17 * TASK),
        (TABLE, TABLE.replace("guaranteed = 1", "guaranteed = 2").replace("cores = 4", "cores = 2") +
         TASK.replace("guaranteed = 0", "guaranteed = 3")), (TABLE, "no table\n"), (TABLE, "\ufeff" + TABLE + "x\n"),
    ]]
    utf16 = "".join(f"{letter}\x00" for letter in TABLE[:40])
    return [*made, "\udcff\udcfe" + utf16, "", "\n", "-" * 3]


def arrivals() -> "list[str]":
    """Arrivals that are none, for a table of five threads."""
    rows = ["", "busy,0,0,1,1", "turn,1,2", "request,0,0,1,1", "end", "pass,x,0", "pass,1,01", "pass,1,-1",
            "pass,1,1.5",
            "pass,1, 2", "pass,1,", "pass,1,1e3", "pass,1,18446744073709551616", "turn,0", "turn,5\nturn,4", "---",
            "turn,5\npass,9,0", "request,0,0,1,1,0", "turn,5\nrequest,5,0,1,1,0", "turn,5\nrequest,0,1,1,1,0",
            "turn,5\nrequest,0,0,1,0,0", "turn,5\nrequest,0,0,1,1000001,0", "turn,5\nrequest,0,0,1,1,4294967296",
            "turn,5\nrequest,0,0,1,1,0\nrequest,0,0,2,1,0", "turn,5\nrequest,1,0,1,1,0\nrequest,0,0,2,1,0",
            "turn,5\nrequest,0,0,1,1,0\nrequest,1,0,1,1,0", "turn,5\nrequest,0,0,1,1,0\nturn,9", "end,0\nturn,1",
            "end,0\nend,0", "pass,1,0\nend,2", "pass,1,0", "caladan-arrivals,1", "caladan-arrivals", ",,", "pas,1,0",
            "grant,0,0,1", "whole,0,1,1,0,0,1,100,0,0,105,0,0", "pass;1;0", "\"turn\",\"5\"x", "cores = 4"]
    made = [f"caladan-arrivals,1\n{row}\n" for row in rows]
    made += ["", "caladan-arrivals,2\nend,0\n", "caladan-signals,1\nend,0\n", "caladan-arrivals\nend,0\n",
             "caladan-arrival,1\nend,0\n", "caladan-arrivals;1\nend;0\n", "time,service\n1,2\n", "pass,1,0\nend,1\n",
             "\udcff\udcfec\x00a\x00", "caladan_arrivals,1\nend,0\n", "caladan-history,3\nend,0\n"]
    return made


def histories() -> "list[str]":
    """Histories that are none, for a table of one thread."""
    look = "pass,100,0\nbusy,0,0,1,1\n"
    whole = "whole,0,1,1,0,0,1,100,0,0,105,0,0"
    rows = ["free,0", "pass,0,0\nfree,0", "pass,0,0\nend,1", f"{look}busy,0,0,1,1", f"{look}end,1\nfree,0",
            f"{look}free,2",
            f"{look}ban,0,1,0", f"{look}revoke,0,ban,2", f"{look}revoke,0,preempt,1", f"{look}cap,1,0",
            f"{look}cap,0,17",
            f"{look}grant,0,0,0", f"{look}grant,0,0,6", f"{look}grant,0,1,1", f"{look}grant,x,0,1",
            f"{look}revoke,0,preempt",
            f"{look}revoke,0,bandwidth,1", f"{look}revoke,0,thirst,1", f"{look}unban", "pass,1,0\nbusy,0,0,1,2",
            "pass,1,0\nbusy,0,2,1,1", "pass,1,0\nbusy,1,0,1,1", "pass,1,0\nwhole,0,1,1,0", "pass,1,0\nahead,0,1,1",
            "pass,1,0\nwhole,0,1,1,0,129,0,0,0,0,0,0,0", "pass,1,0\nwhole,0,1,1,0,0,0,0,0,72057594037927937,0,0,0",
            f"{look}{339 * 'free,0' + chr(10)}", f"{look}" + 339 * "free,0\n" + "end,1", "busy,0,0,1,1", look, "turn,5",
            "pass,1,0\nhole,0,1", f"{look}end,2", f"{look}grants,0,0,1", f"pass,1,0\n{whole}\nend"]
    made = [f"caladan-history,2\n{row}\n" for row in rows]
    made += ["caladan-history,1\npass,0,0\nahead,0,0,1,0,0,0,0,0,0,0,0,0\n", "caladan-history,3\nend,0\n",
             "caladan-signals,2\nend,0\n", f"caladan-history,1\npass,100,0\n{whole}\nend,1\n"]
    return made


def comings() -> "list[str]":
    """Files of comings that do not belong to the arrivals."""
    return [COMINGS.replace(was, then) for was, then in [
        ("id,turn", "id"), ("id,turn\n", ""), ("1,0", "1,1"), ("1,0", "9,0"), ("1,0", "x,0"), ("1,0", "1"),
        ("2,0", "2,-1"),
        ("3,0\n", ""), ("3,0\n", "3,0\n4,0\n"), ("left out,1,2", "left out,2,2"), ("left out,1,2", "left out,1,0"),
        ("left out,1,2", "left out,1"), ("left out,1,2", "left out,x,2"),
        ("left out,1,2", "left out,1,2\nleft out,0,1"),
        ("left out,1,2", "left out,1,2\nleft out,1,2"), ("left out,1,2\n", "left out,1,2\n4,0\n"), (COMINGS, ""),
        ("left out,1,2", "left,1,2"), ("2,0", "\"2\",0x"), ("1,0\n", "1,0,0\n"), ("3,0", "3,18446744073709551616")]]


def misplaced() -> "list[str]":
    """Whole inputs of `compare` in which tables and arrivals do not stand as they should."""
    lines = [f"{TABLE}{ARRIVALS}", f"{TABLE}--\n{ARRIVALS}", f"{TABLE}----\n{ARRIVALS}", f"{TABLE}---",
             f"{TABLE}--- \n{ARRIVALS}",
             f"{TABLE} ---\n{ARRIVALS}", f"{TABLE}request = 1 ---\n{ARRIVALS}", f"{ARRIVALS}---\n{TABLE}", ARRIVALS,
             HISTORY, "",
             "\n", f"---\n{ARRIVALS}", f"{TABLE}---\n---\n{ARRIVALS}", f"{TABLE}---\n{ARRIVALS}---\n",
             f"{TABLE}---\n{OTHER}",
             f"{TABLE}---\n{OTHER}---x\n{ARRIVALS}", f"{TABLE}---\n", f"{TABLE}+++\n{ARRIVALS}", "\x00\x00",
             "\udcff\udcfe-\x00-\x00"]
    return [*lines, f"{TABLE}---\n{ONE}---\n{ARRIVALS}", f"{ONE}---\n{TABLE}---\n{ARRIVALS}", f"{TABLE}---\n{HISTORY}",
            (f"{TABLE}---\n{ARRIVALS}").replace("\n", "\r"), f"{TABLE}\f---\n{ARRIVALS}"]


def of_tables() -> "list[Case]":
    """Each table by itself, in front of arrivals or as the second one, and as a file."""
    made = []
    for n, text in enumerate(tables()):
        made.append(Case(f"sweep-table-{n:03}", ("sweep", "--load", "0.5", "--turns", "20"), text))
        whole = f"{TABLE}---\n{text}---\n{ARRIVALS}" if n % 2 else f"{text}---\n{OTHER}---\n{ARRIVALS}"
        if n % 3:
            made.append(Case(f"compare-table-{n:03}", ("compare",), whole))
        else:
            made.append(Case(f"compare-table-{n:03}", ("compare", "good.toml", "bad.toml", "--arrivals", "-"), ARRIVALS,
                             files={"good.toml": TABLE, "bad.toml": text}))
        if n % 8 == 0:
            made.append(Case(f"timeline-table-{n:03}", ("timeline",), f"{text}---\n{ARRIVALS}"))
    return made


def of_traces() -> "list[Case]":
    """Arrivals below a table or in a file, and histories."""
    made = []
    for n, text in enumerate(arrivals()):
        if n % 4 == 0:
            made.append(Case(f"compare-arrivals-{n:03}", ("compare", "t.toml", "--arrivals", "bad.csv"),
                             files={"t.toml": TABLE, "bad.csv": text}))
        else:
            words = ("compare", "--vary", "cores=4,6") if n % 4 == 1 else ("compare",)
            made.append(Case(f"compare-arrivals-{n:03}", words, f"{TABLE}---\n{text}"))
        if n % 3 == 0:
            made.append(Case(f"timeline-arrivals-{n:03}", ("timeline",), f"{TABLE}---\n{text}"))
    made += [Case(f"timeline-history-{n:03}", ("timeline",), f"{ONE}---\n{text}") for n, text in enumerate(histories())]
    made += [Case(f"compare-misplaced-{n:03}", ("compare",), text) for n, text in enumerate(misplaced())]
    made += [Case(f"timeline-misplaced-{n:03}", ("timeline",), text) for n, text in enumerate(misplaced()[:12])]
    return made


def of_runs() -> "list[Case]":
    """Arrivals that a plan, a file of comings or a window of turns does not fit."""
    made = [Case(f"compare-comings-{n:03}", ("compare", "--csv", "--came", "came.csv"),
                 f"{TABLE}---\n{OTHER}---\n{ARRIVALS}",
                 files={"came.csv": text}) for n, text in enumerate(comings())]
    plans = [["--pace", "2"], ["--beside", "500"], ["--memory", "5"], ["--figure", "shown"], ["--figure", "given"]]
    for n, plan in enumerate(plans):
        for kind, trace in (("uneven", UNEVEN), ("plain", PLAIN), ("history", HISTORY)):
            made.append(Case(f"compare-plan-{kind}-{n}", ("compare", *plan), f"{TABLE}---\n{OTHER}---\n{trace}"))
            made.append(Case(f"timeline-plan-{kind}-{n}", ("timeline", *plan), f"{TABLE}---\n{trace}"))
    words = ["--from", "0"], ["--to", "2"], ["--came", "came.csv"]
    made += [Case(f"compare-window-{n}", ("compare", *word), f"{TABLE}---\n{HISTORY}", files={"came.csv": COMINGS})
             for n, word in enumerate(words)]
    return made


def cases() -> "list[Case]":
    return [*of_tables(), *of_traces(), *of_runs()]
