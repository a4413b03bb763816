"""A policy of one's own behind the guard: who waits longest comes first. The guard makes a pass only if each of its
actions is permitted, and says which one is not, and why.

    own_policy.py

Two passes over two cores: both are granted; then one is to be freed that its thread has not left, which the guard
refuses, and it is revoked instead. It needs the C library (caladan.core says where it is looked for)."""
from caladan.core import Action, Cause, CoreState, Guard, Kind, Look, NotPermitted

TABLE = """
cores = 2
bandwidth_limit = 1000

[[task]]
kind = "lc"
guaranteed = 1
limit = 1
delay = 10
request = 50

[[task]]
kind = "be"
guaranteed = 0
limit = 2
delay = 0
request = 0
"""


def seen(number, taken, running, queued, oldest=0):
    """What a thread shows in this record of its page; its ring has room."""
    return Look(room=1, number=number, taken=taken, running=running, queued=queued, oldest=oldest, stamp=100 * number)


# begin
def longest_wait(guard, looks):
    """A grant of each free core, to the thread without one whose request has waited longest."""
    free = [it for it in range(guard.machine().cores) if guard.holder(it).state == CoreState.CORE_FREE]
    waiting = [thread for thread, look in enumerate(looks) if look.queued and not look.running and look.room]
    waiting.sort(key=lambda thread: looks[thread].oldest)
    return [Action(kind=Kind.GRANT, core=core, thread=thread, core_class=3) for core, thread in zip(free, waiting)]


with Guard(TABLE) as guard:
    looks = [seen(1, 0, 0, 1, 90), seen(1, 0, 0, 1, 70), seen(1, 0, 0, 1, 80)]
    actions = longest_wait(guard, looks)
    print(*actions, sep="\n")
    guard.run_each(110, 0, looks, actions)

    # Threads 1 and 2 have taken their cores, and thread 0 still waits.
    looks = [seen(2, 0, 0, 1, 90), seen(2, 1, 1, 0), seen(2, 1, 2, 0)]
    try:
        guard.run_each(210, 0, looks, [Action(kind=Kind.FREE, core=1)])
    except NotPermitted as refused:
        print(refused)
    guard.run_each(210, 0, looks, [Action(kind=Kind.REVOKE, core=1, cause=Cause.FOR_TASK, task=0)])
    print(guard.holder(1))
# end
