"""Small machines, on which the assured policy makes passes: its words as docs/POLICY.md has them, and bodies that
are wrong in one word. A judge is told each action before it is done."""
import collections

Task = collections.namedtuple("Task", "lc guaranteed limit delay request")


def each(numbers, part):
    for number in numbers:
        part(number)


class Machine:
    """Who has which core, and what each thread showed last, at a place of a pass. None is -1."""

    def __init__(self, cores, tasks):
        self.tasks, self.numbers, self.cores = tasks, range(len(tasks)), range(cores)
        self.owner = [t for t, it in enumerate(tasks) for _ in range(it.limit)]
        self.teams = [[k for k, owner in enumerate(self.owner) if owner == t] for t in self.numbers]
        self.thread, self.cause, self.number = [-1] * cores, [None] * cores, [0] * cores
        self.owed, self.last, self.bans, self.since = [-1] * cores, [-1] * cores, [None] * cores, [0] * cores
        nothing = [0] * len(self.owner)
        self.core, self.running, self.oldest = [-1] * len(nothing), [-1] * len(nothing), [-1] * len(nothing)
        self.sent, self.taken, self.started, self.misses = nothing[:], nothing[:], nothing[:], nothing[:]
        self.before, self.rooms = nothing[:], [True] * len(nothing)
        self.cap = [it.limit for it in tasks]
        self.now, self.passes, self.over, self.acts, self.fresh = 100, 0, False, [], set()

    def do(self, judge, *action):
        judge.before(self, action)
        self.acts.append(action)
        getattr(self, f"do_{action[0]}")(*action[1:])

    def do_free(self, c):
        self.owed[c] = self.cause[c][1] if self.cause[c] and self.cause[c][0] == "preempt" else -1
        self.core[self.thread[c]], self.thread[c], self.cause[c] = -1, -1, None

    def do_revoke(self, c, cause):
        self.cause[c], self.since[c] = cause, self.passes
        self.sent[self.thread[c]] += 1

    def do_grant(self, c, k, _):
        self.sent[k] += 1
        self.thread[c], self.number[c], self.core[k], self.owed[c], self.last[c] = k, self.sent[k], c, -1, self.owner[k]
        self.fresh.add(c)

    def do_ban(self, c, k, started):
        self.bans[c] = k, started

    def do_unban(self, c):
        self.bans[c] = None

    def do_cap(self, t, cap):
        self.cap[t] = cap

    def is_held(self, c):
        return self.thread[c] >= 0 and self.cause[c] is None

    def booked(self, t):
        return sum(self.core[k] >= 0 for k in self.teams[t])

    def held(self, t):
        return sum(self.core[k] >= 0 and self.cause[self.core[k]] is None for k in self.teams[t])

    def is_over(self, t):
        return self.held(t) > self.tasks[t].guaranteed

    def delay(self, k):
        return max(0, self.now - self.oldest[k]) if self.oldest[k] >= 0 else 0

    def lateness(self, t):
        return max(map(self.delay, self.teams[t])) - self.tasks[t].delay

    def is_late(self, k):
        return self.delay(k) > self.tasks[self.owner[k]].delay

    def flies(self, k):
        c = self.core[k]
        return c >= 0 and self.cause[c] is None and self.taken[k] < self.number[c]

    def grantable(self, t):
        return [k for k in self.teams[t] if self.core[k] < 0 and self.rooms[k]]

    def free_banned(self):
        return [c for c in self.cores if self.thread[c] < 0 and self.bans[c]]

    def has_acted(self, t):
        return any(it[0] == "grant" and self.owner[it[2]] == t or it[0] == "revoke" and it[2] == ("preempt", t)
                   for it in self.acts)


class Rule(Machine):
    """The words of the policy, and its pass."""

    def pressing(self, t):
        return sum(self.is_late(k) and not self.flies(k) for k in self.teams[t])

    def coming(self, t):
        return self.cause.count(("preempt", t))

    def is_short(self, t):
        return self.tasks[t].lc and self.booked(t) < self.tasks[t].guaranteed

    def lack(self, t):
        return self.tasks[t].guaranteed - self.booked(t) if self.is_short(t) else 0

    def surplus(self, t):
        helping = [k for k in self.teams[t] if self.flies(k) and not self.is_late(k)]
        return sum(self.core[k] in self.fresh for k in helping) if self.is_short(t) else len(helping)

    def waits(self, t):
        most = self.tasks[t].limit if self.tasks[t].lc else min(self.tasks[t].limit, self.cap[t])
        return self.booked(t) < most and self.pressing(t) > self.surplus(t) and self.grantable(t) != []

    def short_waiting(self):
        return [t for t in self.numbers if self.is_short(t) and self.waits(t)]

    def lacking(self):
        return sum(map(self.lack, self.short_waiting()))

    def open_cores(self):
        return [c for c in self.cores if self.thread[c] < 0 and not self.bans[c]]

    def are_wanted(self):
        return self.short_waiting() != [] and len(self.open_cores()) < self.lacking()

    def are_lacked(self):
        return self.short_waiting() != [] and len(self.open_cores()) <= self.lacking()

    def most_kept(self, u):
        return min(self.lack(u), self.pressing(u), len(self.grantable(u)))

    def owed_below(self, u, c):
        return self.owed[:c].count(u)

    def is_kept(self, t, c):
        u = self.owed[c]
        if u in (-1, t) or not self.waits(u):
            return False
        return not self.is_short(t) or self.is_short(u) and self.owed_below(u, c) < self.most_kept(u)

    def may_take(self, t):
        return [c for c in self.open_cores() if not self.is_kept(t, c)]

    def acts_again(self, t):
        return self.is_short(t)

    def calls_again(self, t):
        return not self.has_acted(t) or self.coming(t) < self.lack(t)

    def takes_from_critical(self, t):
        return self.coming(t) < self.lack(t)

    def is_shown(self, c):
        k, started = self.bans[c]
        return self.running[k] == c ^ 1 and self.started[k] == started

    def free_at(self, judge, c):
        k = self.thread[c]
        if k >= 0 and self.taken[k] >= self.number[c] and self.running[k] < 0:
            self.do(judge, "free", c)

    def unban_at(self, judge, c):
        if self.bans[c] and (not self.is_shown(c) or self.are_wanted()):
            self.do(judge, "unban", c)

    def ban_at(self, judge, c):
        k, s = self.thread[c], c ^ 1
        task = self.tasks[self.owner[k]]
        if not self.is_held(c) or not task.lc or self.running[k] != c or self.bans[c] or self.bans[s]:
            return
        other = self.thread[s]
        is_emptied = not self.is_held(s) or self.rooms[other] and self.is_over(self.owner[other])
        if not is_emptied or self.now - self.started[k] <= task.request:
            return
        if other < 0 and self.are_lacked():
            judge.spared(self)
            return
        self.do(judge, "ban", s, k, self.started[k])
        if self.is_held(s):
            self.do(judge, "revoke", s, ("ban", c))

    def bandwidth_part(self, judge):
        burstable = [t for t in self.numbers if not self.tasks[t].lc]
        if not self.over:
            each([t for t in burstable if self.cap[t] < self.tasks[t].limit][:1],
                 lambda t: self.do(judge, "cap", t, self.cap[t] + 1))
            return
        loses = {t: [c for k in self.teams[t] if self.rooms[k] for c in [self.core[k]] if c >= 0 and not self.cause[c]]
                 for t in burstable}
        new = {t: sum(self.misses[k] - self.before[k] for k in self.teams[t]) for t in burstable if loses[t]}
        if new:
            t = min(new, key=lambda t: (-new[t], t))
            self.do(judge, "cap", t, self.held(t) - 1)
            self.do(judge, "revoke", max(loses[t]), ("bandwidth",))

    def idle_class(self, t, c):
        if self.is_held(c ^ 1) and self.owner[self.thread[c ^ 1]] == t:
            return 1
        return 2 if self.last[c] == t else 3

    def victim(self, t):
        """The core of class 4 or 5 that is taken for t."""
        held = [c for c in self.cores if self.is_held(c) and self.rooms[self.thread[c]] and c not in self.fresh]
        classes = [(4, c) for c in held if not self.tasks[self.owner[self.thread[c]]].lc]
        if not classes and self.takes_from_critical(t):
            classes = [(5, c) for c in held for u in [self.owner[self.thread[c]]] if u != t and self.is_over(u)]
        return min(classes, default=(0, -1))[1]

    def act(self, judge, t):
        """Whether t acted."""
        mine = [(self.owed[c] != t, self.idle_class(t, c), c) for c in self.may_take(t)] if self.waits(t) else []
        if mine:
            _, rank, core = min(mine)
            self.do(judge, "grant", core, min(self.grantable(t), key=lambda k: (-self.delay(k), k)), rank)
            return True
        presses = self.tasks[t].lc and self.waits(t) and self.pressing(t) > self.coming(t) + self.surplus(t)
        core = self.victim(t) if presses and self.calls_again(t) else -1
        if core >= 0:
            self.do(judge, "revoke", core, ("preempt", t))
        return core >= 0

    def turn(self, judge, t):
        judge.turn(self, t)
        while self.act(judge, t) and self.acts_again(t):
            pass

    def order(self):
        return sorted(self.numbers, key=lambda t: (0, t) if self.is_short(t) else (1, -self.lateness(t), t)
                      if self.tasks[t].lc else (2, self.held(t), t))

    def make_pass(self, judge):
        self.acts, self.fresh = [], set()
        each(self.cores, lambda c: self.free_at(judge, c))
        each(self.cores, lambda c: self.unban_at(judge, c))
        judge.unbanned(self)
        each(self.cores, lambda c: self.ban_at(judge, c))
        self.bandwidth_part(judge)
        judge.granting(self)
        each(self.order(), lambda t: self.turn(judge, t))
        judge.ended(self)
        self.passes, self.before = self.passes + 1, self.misses[:]


class IdleGuaranteesLack(Rule):
    def lacking(self):
        return sum(map(self.lack, self.numbers))


class ShortActsOnce(Rule):
    def acts_again(self, t):
        return False


class FiveBeyondTheLack(Rule):
    def takes_from_critical(self, t):
        return self.is_short(t)


class ActsOnAfterAll(Rule):
    def acts_again(self, t):
        return self.tasks[t].lc and self.tasks[t].guaranteed > 0


class CallsOnAfterAll(Rule):
    def calls_again(self, t):
        return True


class OwedToAnyone(Rule):
    def is_kept(self, t, c):
        return False


class UnbanLeavesTooFew(Rule):
    def are_wanted(self):
        return self.short_waiting() != [] and len(self.open_cores()) + 1 < self.lacking()


class ForgetsThoseJustRevoked(Rule):
    def coming(self, t):
        return sum(it == ("preempt", t) and since < self.passes for it, since in zip(self.cause, self.since))


class OldHelpersForgotten(Rule):
    def surplus(self, t):
        return 0 if self.is_short(t) else Rule.surplus(self, t)


class KeptForAllItLacks(Rule):
    def most_kept(self, u):
        return self.lack(u)


class RuleOfBefore(KeptForAllItLacks, OldHelpersForgotten, CallsOnAfterAll, FiveBeyondTheLack, ShortActsOnce,
                   IdleGuaranteesLack):
    """All of these, and no open core is for a task that is not short, where they are lacked."""

    def is_kept(self, t, c):
        return not self.is_short(t) and self.are_lacked() or Rule.is_kept(self, t, c)


BODIES = {it.__name__: it for it in (
    IdleGuaranteesLack, ShortActsOnce, FiveBeyondTheLack, ActsOnAfterAll, CallsOnAfterAll, OwedToAnyone,
    UnbanLeavesTooFew, ForgetsThoseJustRevoked, OldHelpersForgotten, RuleOfBefore)}
# That one is known to be wrong by a run that was found by thought; search has not met it.
HARD = {"KeptForAllItLacks": KeptForAllItLacks}
