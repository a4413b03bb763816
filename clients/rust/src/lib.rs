//! The decisions of a core scheduler, proved: a safe wrapper of `caladan.h`, which says more.
//!
//! The wrapper keeps what the header asks of a caller: a handle is owned by one `Scheduler`, which is
//! not copied, may be sent to another thread and is used by one at a time, and each slice is passed with
//! its length.

use std::error::Error;
use std::fmt;

/// The most actions that a pass has.
pub const MOST_ACTIONS: usize = 338;

/// The words of a record, in order.
pub const WORDS: &[&str] = &["taken", "running", "queued", "oldest", "started", "misses", "stamp", "paused", "since"];

#[repr(C)]
struct Handle {
    open: bool,
    at: *mut u8,
}

// What it points to is its alone, and no thread's own: caladan.h lets it move between threads. It is not `Sync`.
unsafe impl Send for Handle {}

/// What the look at one thread's page found, and whether the thread's command ring had room.
#[repr(C)]
#[derive(Clone, Copy, Debug, Default, PartialEq, Eq)]
pub struct Look {
    pub busy: u8,
    pub room: u8,
    pub number: u64,
    pub second: u64,
    /// The record's words, as `WORDS` names them.
    pub words: [u64; WORDS.len()],
}

impl Look {
    /// The look that a pass by `pass_each` took of this one, of which it judged so.
    pub fn taken(self, judged: Judged) -> Look {
        if judged.is_refused() { Look { busy: 1, room: self.room, number: 1, second: 1, ..self } } else { self }
    }
}

/// One action of a pass, in the numbers of `caladan.h`.
#[repr(C)]
#[derive(Clone, Copy, Debug, Default, PartialEq, Eq)]
pub struct Action {
    pub kind: u8,
    pub core: u8,
    pub thread: u8,
    pub core_class: u8,
    pub cause: u8,
    pub by: u8,
    pub task: u8,
    pub cap: u8,
    pub started: u64,
}

impl Action {
    /// Of a revocation: why.
    pub fn cause_text(&self) -> &'static str {
        text(&["no cause", "for a ban", "for bandwidth", "for a task"], self.cause, "no cause")
    }

    /// The row of a history (docs/FORMATS.md).
    fn row(&self) -> String {
        let Action { kind, core, thread, core_class, cause, by, task, cap, started } = *self;
        match (kind, cause) {
            (1, _) => format!("free,{core}\n"),
            (2, _) => format!("unban,{core}\n"),
            (3, _) => format!("ban,{core},{thread},{started}\n"),
            (4, 1) => format!("revoke,{core},ban,{by}\n"),
            (4, 2) => format!("revoke,{core},bandwidth\n"),
            (4, _) => format!("revoke,{core},preempt,{task}\n"),
            (5, _) => format!("cap,{task},{cap}\n"),
            _ => format!("grant,{core},{thread},{core_class}\n"),
        }
    }
}

/// The rows of a pass that `pass_each` made, in a history (docs/FORMATS.md, version 2): of a refused look the
/// busy one that was taken.
pub fn history_of_each(now: u64, bandwidth: u64, looks: &[Look], judged: impl IntoIterator<Item = Judged>, actions: &[Action]) -> String {
    let mut rows = format!("pass,{now},{bandwidth}\n");
    for (thread, (look, judged)) in looks.iter().zip(judged).enumerate() {
        let Look { busy, room, number, second, words } = look.taken(judged);
        let room = u8::from(room != 0);
        rows += &if busy != 0 {
            format!("busy,{thread},{room},{number},{second}\n")
        } else {
            let words: String = words.iter().map(|word| format!(",{word}")).collect();
            format!("whole,{thread},{room},{number}{words}\n")
        };
    }
    rows.extend(actions.iter().map(Action::row));
    rows
}

fn text(texts: &[&'static str], number: u8, none: &'static str) -> &'static str {
    texts.get(usize::from(number)).copied().unwrap_or(none)
}

/// What a task has, in cores.
#[repr(C)]
#[derive(Clone, Copy, Debug, Default, PartialEq, Eq)]
pub struct Counts {
    pub held: u8,
    pub booked: u8,
    pub cap: u8,
}

/// Where a guard stopped a pass, and why, in the numbers of `caladan.h`.
#[repr(C)]
#[derive(Clone, Copy, Debug, Default, PartialEq, Eq)]
pub struct Stopped {
    /// The number of the first action that is not permitted; of them all, where the pass may not end.
    pub place: usize,
    pub why: u8,
    /// The core or task that the reason names, else 0.
    pub names: u8,
}

/// Why a call did nothing, as a number of `caladan.h`.
#[derive(Clone, Copy, Debug, PartialEq, Eq)]
pub struct Refused(pub u8);

impl fmt::Display for Refused {
    fn fmt(&self, out: &mut fmt::Formatter<'_>) -> fmt::Result {
        out.write_str(text(ANSWERS, self.0, "no answer"))
    }
}

impl Error for Refused {}

const ANSWERS: &[&str] = &[
    "done",
    "the table is not TOML",
    "the table has an unknown key",
    "the table lacks a key",
    "a value has the wrong type",
    "a value is out of range",
    "a best-effort task has a guarantee",
    "the guarantees exceed the cores",
    "there are too many threads",
    "out of memory",
    "the handle is closed",
    "the handle is open",
    "no answer",
    "the count is wrong",
    "there is too little room",
    "a look does not fit",
    "the table has no such core, task or thread",
    "an action is none",
    "an action is not permitted",
    "a number is no judgement of its look",
    "a pass is not legal",
    "no page can show that the thread is gone",
    "no policy has this number",
];

const WHY: &[&str] = &[
    "no reason",
    "the pass has the most actions",
    "it does not fit the state",
    "the core was not left",
    "the core is banned",
    "the task is at its limit",
    "the task is at its cap",
    "the task is at its guarantee",
    "the ring is full",
    "a second command to the thread in this pass",
    "a banned core is held",
    "a task is over its cap",
];

impl fmt::Display for Stopped {
    fn fmt(&self, out: &mut fmt::Formatter<'_>) -> fmt::Result {
        write!(out, "action {}: {}", self.place, text(WHY, self.why, "no reason"))
    }
}

/// What the table says of the machine.
#[repr(C)]
#[derive(Clone, Copy, Debug, Default, PartialEq, Eq)]
pub struct Machine {
    pub cores: u8,
    pub tasks: u8,
    pub threads: u8,
    pub bandwidth_limit: u64,
}

/// What the table says of a task: `kind` is 1 for a latency-critical and 2 for a best-effort one.
#[repr(C)]
#[derive(Clone, Copy, Debug, Default, PartialEq, Eq)]
pub struct TableTask {
    pub kind: u8,
    pub guaranteed: u8,
    pub limit: u8,
    pub first_thread: u8,
    pub delay: u64,
    pub request: u64,
}

/// A thread after the passes so far.
#[repr(C)]
#[derive(Clone, Copy, Debug, Default, PartialEq, Eq)]
pub struct Thread {
    pub task: u8,
    /// Commands sent to it.
    pub sent: u64,
    /// Those that its kept record acknowledges.
    pub taken: u64,
}

impl Thread {
    /// Whether its ring of four places has room. No word of the ring is read for it.
    pub fn has_room(&self) -> bool {
        self.sent - self.taken < 4
    }
}

#[repr(C)]
#[derive(Default)]
struct Holder {
    state: u8,
    thread: u8,
    cause: u8,
    cause_of: u8,
}

/// For whom a core is banned: the thread on its sibling, and when its request was begun. `banned` is 0 where it is
/// not, and then all is 0.
#[repr(C)]
#[derive(Clone, Copy, Debug, Default, PartialEq, Eq)]
pub struct Ban {
    pub banned: u8,
    pub thread: u8,
    pub started: u64,
}

/// To which thread a core was granted last, and its task. `granted` is 0 where to none so far, and then all is 0.
#[repr(C)]
#[derive(Clone, Copy, Debug, Default, PartialEq, Eq)]
pub struct Last {
    pub granted: u8,
    pub thread: u8,
    pub task: u8,
}

/// The text of a table of these rows, for `open`; their `first_thread` is not read. A refusal names its number alone.
pub fn text_of_rows(cores: u64, bandwidth_limit: u64, rows: &[TableTask]) -> String {
    let most = |number: u64| number.min(i64::MAX as u64); // TOML has no greater one, and no key has as much
    let mut text = format!("cores = {}\nbandwidth_limit = {}\n", most(cores), most(bandwidth_limit));
    if rows.is_empty() {
        text += "task = []\n";
    }
    for row in rows {
        let kind = ["none", "lc", "be"].get(usize::from(row.kind)).unwrap_or(&"none");
        let TableTask { guaranteed, limit, .. } = row;
        let (delay, request) = (most(row.delay), most(row.request));
        text += &format!("[[task]]\nkind = \"{kind}\"\nguaranteed = {guaranteed}\nlimit = {limit}\ndelay = {delay}\nrequest = {request}\n");
    }
    text
}

/// What was judged of a look.
#[derive(Clone, Copy, Debug, PartialEq, Eq)]
pub enum Judged {
    Kept,
    Busy,
    /// It acknowledges more commands than were sent.
    Ahead,
    /// It shows its thread on a core that the thread was not given.
    Foreign,
    /// Its versions are no busy pair.
    NoPair,
    /// `running` or `misses` is out of range.
    Misshapen,
    PlaceFell,
    /// Another record at the same place.
    Changed,
    /// `taken`, `misses` or `stamp` fell.
    WordFell,
}

impl Judged {
    fn of(number: u8) -> Judged {
        match number {
            1 => Judged::Kept,
            2 => Judged::Busy,
            3 => Judged::Ahead,
            4 => Judged::Foreign,
            5 => Judged::NoPair,
            6 => Judged::Misshapen,
            7 => Judged::PlaceFell,
            8 => Judged::Changed,
            _ => Judged::WordFell,
        }
    }

    /// Whether a pass by `pass_each` took a busy look in its place.
    pub fn is_refused(self) -> bool {
        !matches!(self, Judged::Kept | Judged::Busy)
    }
}

impl fmt::Display for Judged {
    fn fmt(&self, out: &mut fmt::Formatter<'_>) -> fmt::Result {
        out.write_str(match self {
            Judged::Kept => "kept",
            Judged::Busy => "busy",
            Judged::Ahead => "ahead: it acknowledges more commands than were sent",
            Judged::Foreign => "foreign: it shows a core that the thread was not given",
            Judged::NoPair => "its versions are no busy pair",
            Judged::Misshapen => "misshapen: running or misses is out of range",
            Judged::PlaceFell => "its place fell",
            Judged::Changed => "another record at the same place",
            Judged::WordFell => "taken, misses or stamp fell",
        })
    }
}

/// A command that a pass sends.
#[derive(Clone, Copy, Debug, PartialEq, Eq)]
pub enum Command {
    Run { core: u8 },
    Park,
}

extern "C" {
    #[allow(clippy::too_many_arguments)]
    fn caladan_pass_each(
        handle: *mut Handle,
        now: u64,
        bandwidth: u64,
        looks: *const Look,
        count: usize,
        judged: *mut u8,
        judged_room: usize,
        actions: *mut Action,
        room: usize,
        made: *mut usize,
    ) -> u8;
    fn caladan_first_unfit(handle: *mut Handle, looks: *const Look, count: usize, thread: *mut usize) -> u8;
    fn caladan_table(handle: *mut Handle, machine: *mut Machine) -> u8;
    fn caladan_table_task(handle: *mut Handle, task: usize, row: *mut TableTask) -> u8;
    fn caladan_thread(handle: *mut Handle, thread: usize, state: *mut Thread) -> u8;
    fn caladan_gone(handle: *mut Handle, thread: usize, look: *mut Look) -> u8;
    fn caladan_kept(handle: *mut Handle, thread: usize, look: *mut Look) -> u8;
    fn caladan_holder(handle: *mut Handle, core: u8, holder: *mut Holder) -> u8;
    fn caladan_open_policy(table: *const u8, length: usize, policy: u32, handle: *mut Handle) -> u8;
    fn caladan_threads(handle: *mut Handle) -> usize;
    fn caladan_bandwidth_limit(handle: *mut Handle) -> u64;
    #[allow(clippy::too_many_arguments)]
    fn caladan_pass(
        handle: *mut Handle,
        now: u64,
        bandwidth: u64,
        looks: *const Look,
        count: usize,
        judged: *mut u8,
        judged_room: usize,
        actions: *mut Action,
        room: usize,
        made: *mut usize,
    ) -> u8;
    fn caladan_task(handle: *mut Handle, task: usize, counts: *mut Counts) -> u8;
    fn caladan_close(handle: *mut Handle) -> u8;
    fn caladan_audit_open_policy(table: *const u8, length: usize, policy: u32, handle: *mut Handle) -> u8;
    #[allow(clippy::too_many_arguments)]
    fn caladan_audit_pass(
        handle: *mut Handle,
        now: u64,
        bandwidth: u64,
        looks: *const Look,
        count: usize,
        judged: *const u8,
        judged_count: usize,
        actions: *const Action,
        made: usize,
    ) -> u8;
    fn caladan_audit_verdict(handle: *mut Handle, pass: *mut u64) -> u8;
    fn caladan_audit_close(handle: *mut Handle) -> u8;
    fn caladan_guard_open(table: *const u8, length: usize, handle: *mut Handle) -> u8;
    #[allow(clippy::too_many_arguments)]
    fn caladan_guard_pass(
        handle: *mut Handle,
        now: u64,
        bandwidth: u64,
        looks: *const Look,
        count: usize,
        judged: *mut u8,
        judged_room: usize,
        actions: *const Action,
        made: usize,
        refused: *mut Stopped,
    ) -> u8;
    #[allow(clippy::too_many_arguments)]
    fn caladan_guard_pass_each(
        handle: *mut Handle,
        now: u64,
        bandwidth: u64,
        looks: *const Look,
        count: usize,
        judged: *mut u8,
        judged_room: usize,
        actions: *const Action,
        made: usize,
        refused: *mut Stopped,
    ) -> u8;
    fn caladan_guard_first_unfit(handle: *mut Handle, looks: *const Look, count: usize, thread: *mut usize) -> u8;
    fn caladan_guard_table(handle: *mut Handle, machine: *mut Machine) -> u8;
    fn caladan_guard_table_task(handle: *mut Handle, task: usize, row: *mut TableTask) -> u8;
    fn caladan_guard_thread(handle: *mut Handle, thread: usize, state: *mut Thread) -> u8;
    fn caladan_guard_gone(handle: *mut Handle, thread: usize, look: *mut Look) -> u8;
    fn caladan_guard_kept(handle: *mut Handle, thread: usize, look: *mut Look) -> u8;
    fn caladan_guard_judge(handle: *mut Handle, looks: *const Look, count: usize, judged: *mut u8, judged_room: usize) -> u8;
    fn caladan_guard_ban(handle: *mut Handle, core: u8, ban: *mut Ban) -> u8;
    fn caladan_guard_last(handle: *mut Handle, core: u8, last: *mut Last) -> u8;
    fn caladan_guard_holder(handle: *mut Handle, core: u8, holder: *mut Holder) -> u8;
    fn caladan_guard_task(handle: *mut Handle, task: usize, counts: *mut Counts) -> u8;
    fn caladan_guard_close(handle: *mut Handle) -> u8;
}

const CLOSED: Handle = Handle { open: false, at: std::ptr::null_mut() };

fn answered(answer: u8) -> Result<(), Refused> {
    if answer == 0 { Ok(()) } else { Err(Refused(answer)) }
}

/// The policies, by which passes are made and audited (docs/POLICY.md).
#[derive(Clone, Copy, Debug, PartialEq, Eq)]
pub enum Policy {
    Caladan = 0,
    Assured = 1,
}

impl Policy {
    /// All of them, by their numbers.
    pub const ALL: [Policy; 2] = [Policy::Caladan, Policy::Assured];

    /// Its name, as `caladan_sim` takes it after `--policy`.
    pub fn name(self) -> &'static str {
        match self {
            Policy::Caladan => "caladan",
            Policy::Assured => "assured",
        }
    }

    /// The policy of this name, if there is one.
    pub fn named(name: &str) -> Option<Policy> {
        Policy::ALL.into_iter().find(|it| it.name() == name)
    }
}

/// A task table and its passes. After a refusal nothing has changed.
pub struct Scheduler {
    handle: Handle,
    judged: Vec<u8>,
    actions: Vec<Action>,
    made: usize,
}

impl Scheduler {
    /// Opens the task table that a text spells, for passes by Caladan's policy. Its error is the table's first fault.
    pub fn open(table: &str) -> Result<Scheduler, Refused> {
        Scheduler::open_by(table, Policy::Caladan)
    }

    /// The same for passes by this policy.
    pub fn open_by(table: &str, policy: Policy) -> Result<Scheduler, Refused> {
        let mut handle = CLOSED;
        answered(unsafe { caladan_open_policy(table.as_ptr(), table.len(), policy as u32, &mut handle) })?;
        let threads = unsafe { caladan_threads(&mut handle) };
        Ok(Scheduler {
            handle,
            judged: vec![0; threads],
            actions: vec![Action::default(); MOST_ACTIONS],
            made: 0,
        })
    }

    /// How many kernel threads the table has.
    pub fn threads(&self) -> usize {
        self.judged.len()
    }

    /// The bandwidth figure above which a best-effort task loses a core.
    pub fn bandwidth_limit(&mut self) -> u64 {
        unsafe { caladan_bandwidth_limit(&mut self.handle) }
    }

    /// The next pass, on one look for each thread: its actions, and what was judged of each look.
    pub fn pass(&mut self, now: u64, bandwidth: u64, looks: &[Look]) -> Result<(&[Action], &[u8]), Refused> {
        answered(unsafe {
            caladan_pass(
                &mut self.handle,
                now,
                bandwidth,
                looks.as_ptr(),
                looks.len(),
                self.judged.as_mut_ptr(),
                self.judged.len(),
                self.actions.as_mut_ptr(),
                self.actions.len(),
                &mut self.made,
            )
        })?;
        Ok((&self.actions[..self.made], &self.judged))
    }

    /// The next pass, each look by itself: one that is unfit, ahead or foreign is taken as a busy one, so
    /// it stops nobody and leaves no trace. Its actions, and what was judged of each look.
    pub fn pass_each(&mut self, now: u64, bandwidth: u64, looks: &[Look]) -> Result<(&[Action], impl Iterator<Item = Judged> + '_), Refused> {
        answered(unsafe {
            caladan_pass_each(
                &mut self.handle,
                now,
                bandwidth,
                looks.as_ptr(),
                looks.len(),
                self.judged.as_mut_ptr(),
                self.judged.len(),
                self.actions.as_mut_ptr(),
                self.actions.len(),
                &mut self.made,
            )
        })?;
        Ok((&self.actions[..self.made], self.judged.iter().map(|number| Judged::of(*number))))
    }

    /// When to make the next pass after one at `now` that made no action, if no look, no ring's room and no side of
    /// the bandwidth limit changes until then: no pass before that clock makes an action. None: at no clock. It goes
    /// by the table and the kept records, as `caladan_next_clock` does.
    pub fn next_clock(&mut self, now: u64) -> Option<u64> {
        let tasks: Vec<TableTask> = self.table().collect();
        let mut clocks = Vec::new();
        for row in tasks {
            for thread in 0..usize::from(row.limit) {
                let kept = match self.kept(usize::from(row.first_thread) + thread) {
                    Some(kept) => kept,
                    None => continue,
                };
                let [_, running, queued, oldest, started, _, _, paused, since] = kept.words;
                let runs = row.kind == 1 && running != 0 && started != 0;
                let waits = [(queued != 0, oldest, row.delay), (paused != 0, since, row.delay), (runs, started, row.request)];
                clocks.extend(waits.iter().filter(|it| it.0).filter_map(|it| it.1.checked_add(it.2)?.checked_add(1)));
            }
        }
        clocks.into_iter().filter(|clock| *clock > now && *clock < u64::MAX).min()
    }

    /// What each action of the last pass sends, if anything, and to which thread.
    pub fn commands(&mut self) -> impl Iterator<Item = (u8, Command)> + '_ {
        let Scheduler { handle, actions, made, .. } = self;
        actions[..*made].iter().filter_map(move |action| match action.kind {
            6 => Some((action.thread, Command::Run { core: action.core })),
            4 => {
                let mut holder = Holder::default();
                answered(unsafe { caladan_holder(handle, action.core, &mut holder) }).ok().map(|()| (holder.thread, Command::Park))
            }
            _ => None,
        })
    }
}

/// What an audit says of the passes so far.
#[derive(Clone, Copy, Debug, PartialEq, Eq)]
pub enum Verdict {
    Legal,
    /// This pass, counted from 0, is the first that is not legal.
    Illegal { pass: u64 },
}

/// An audit of recorded passes, handed over one after the other.
pub struct Audit {
    handle: Handle,
}

impl Audit {
    /// Opens an audit of the task table that a text spells, by Caladan's policy. Its error is the table's first fault.
    pub fn open(table: &str) -> Result<Audit, Refused> {
        Audit::open_by(table, Policy::Caladan)
    }

    /// The same by this policy.
    pub fn open_by(table: &str, policy: Policy) -> Result<Audit, Refused> {
        let mut handle = CLOSED;
        answered(unsafe { caladan_audit_open_policy(table.as_ptr(), table.len(), policy as u32, &mut handle) })?;
        Ok(Audit { handle })
    }

    /// Takes the next recorded pass, legal or not: its looks, what was judged of each, and its actions.
    pub fn pass(&mut self, now: u64, bandwidth: u64, looks: &[Look], judged: &[u8], actions: &[Action]) -> Result<(), Refused> {
        answered(unsafe {
            caladan_audit_pass(
                &mut self.handle,
                now,
                bandwidth,
                looks.as_ptr(),
                looks.len(),
                judged.as_ptr(),
                judged.len(),
                actions.as_ptr(),
                actions.len(),
            )
        })
    }

    /// What the audit says of the passes so far.
    pub fn verdict(&mut self) -> Verdict {
        let mut pass = 0;
        match unsafe { caladan_audit_verdict(&mut self.handle, &mut pass) } {
            0 => Verdict::Legal,
            _ => Verdict::Illegal { pass },
        }
    }
}

/// Why a guard let a pass not through.
#[derive(Clone, Copy, Debug, PartialEq, Eq)]
pub enum NotThrough {
    /// An action is not permitted at its place.
    Stopped(Stopped),
    /// The call was refused.
    Refused(Refused),
}

impl fmt::Display for NotThrough {
    fn fmt(&self, out: &mut fmt::Formatter<'_>) -> fmt::Result {
        match self {
            NotThrough::Stopped(stopped) => stopped.fmt(out),
            NotThrough::Refused(refused) => refused.fmt(out),
        }
    }
}

impl Error for NotThrough {}

/// A guard of passes whose actions somebody else chose.
pub struct Guard {
    handle: Handle,
    judged: Vec<u8>,
}

impl Guard {
    /// Opens a guard of the task table that a text spells. Its error is the table's first fault.
    pub fn open(table: &str) -> Result<Guard, Refused> {
        let mut handle = CLOSED;
        answered(unsafe { caladan_guard_open(table.as_ptr(), table.len(), &mut handle) })?;
        Ok(Guard { handle, judged: Vec::new() })
    }

    /// Lets the next pass through, where each of its actions is permitted: what was judged of each look.
    pub fn pass(&mut self, now: u64, bandwidth: u64, looks: &[Look], actions: &[Action]) -> Result<&[u8], NotThrough> {
        self.judged.resize(looks.len(), 0);
        let mut stopped = Stopped::default();
        let answer = unsafe {
            caladan_guard_pass(
                &mut self.handle,
                now,
                bandwidth,
                looks.as_ptr(),
                looks.len(),
                self.judged.as_mut_ptr(),
                self.judged.len(),
                actions.as_ptr(),
                actions.len(),
                &mut stopped,
            )
        };
        match answer {
            0 => Ok(&self.judged),
            18 => Err(NotThrough::Stopped(stopped)),
            _ => Err(NotThrough::Refused(Refused(answer))),
        }
    }

    /// The next pass, each look by itself: one that is unfit, ahead or foreign is taken as a busy one, so
    /// it stops nobody and leaves no trace. What was judged of each look; `judged` says it too, and also
    /// where an action stopped the pass.
    pub fn pass_each(&mut self, now: u64, bandwidth: u64, looks: &[Look], actions: &[Action]) -> Result<impl Iterator<Item = Judged> + '_, NotThrough> {
        self.judged.clear();
        self.judged.resize(looks.len(), 0);
        let mut stopped = Stopped::default();
        let answer = unsafe {
            caladan_guard_pass_each(
                &mut self.handle,
                now,
                bandwidth,
                looks.as_ptr(),
                looks.len(),
                self.judged.as_mut_ptr(),
                self.judged.len(),
                actions.as_ptr(),
                actions.len(),
                &mut stopped,
            )
        };
        if answer != 0 && answer != 18 {
            self.judged.clear();
        }
        match answer {
            0 => Ok(self.judged()),
            18 => Err(NotThrough::Stopped(stopped)),
            _ => Err(NotThrough::Refused(Refused(answer))),
        }
    }

    /// What `pass_each` judged of each look, where it went through or was stopped by an action.
    pub fn judged(&self) -> impl Iterator<Item = Judged> + '_ {
        self.judged.iter().map(|number| Judged::of(*number))
    }

    /// What `pass_each` would judge of each look now. Nothing changes.
    pub fn judge(&mut self, looks: &[Look]) -> Result<Vec<Judged>, Refused> {
        let mut judged = vec![0; looks.len()];
        answered(unsafe { caladan_guard_judge(&mut self.handle, looks.as_ptr(), looks.len(), judged.as_mut_ptr(), judged.len()) })?;
        Ok(judged.into_iter().map(Judged::of).collect())
    }

    /// Whether a core is banned, and for whom, where the table has it.
    pub fn ban(&mut self, core: u8) -> Option<Ban> {
        let mut ban = Ban::default();
        answered(unsafe { caladan_guard_ban(&mut self.handle, core, &mut ban) }).ok().map(|()| ban)
    }

    /// To whom a core was granted last, where the table has it.
    pub fn last(&mut self, core: u8) -> Option<Last> {
        let mut last = Last::default();
        answered(unsafe { caladan_guard_last(&mut self.handle, core, &mut last) }).ok().map(|()| last)
    }

    /// What each of these actions, which the last pass made, sends, if anything, and to which thread.
    pub fn commands<'a>(&'a mut self, actions: &'a [Action]) -> impl Iterator<Item = (u8, Command)> + 'a {
        let handle = &mut self.handle;
        actions.iter().filter_map(move |action| match action.kind {
            6 => Some((action.thread, Command::Run { core: action.core })),
            4 => {
                let mut holder = Holder::default();
                answered(unsafe { caladan_guard_holder(handle, action.core, &mut holder) }).ok().map(|()| (holder.thread, Command::Park))
            }
            _ => None,
        })
    }
}

/// What a scheduler and a guard both say.
macro_rules! says {
    ($Kept:ident: $first_unfit:ident $table:ident $table_task:ident $thread:ident $gone:ident $task:ident $kept:ident) => {
        impl $Kept {
        /// The first thread whose look `pass` would refuse, if there is one.
        pub fn first_unfit(&mut self, looks: &[Look]) -> Result<Option<usize>, Refused> {
            let mut thread = 0;
            match unsafe { $first_unfit(&mut self.handle, looks.as_ptr(), looks.len(), &mut thread) } {
                15 => Ok(Some(thread)),
                answer => answered(answer).map(|()| None),
            }
        }

        /// What the table says of the machine.
        pub fn machine(&mut self) -> Machine {
            let mut machine = Machine::default();
            unsafe { $table(&mut self.handle, &mut machine) };
            machine
        }

        /// What the table says of each task, in order.
        pub fn table(&mut self) -> impl Iterator<Item = TableTask> + '_ {
            (0..).map_while(|task| {
                let mut row = TableTask::default();
                answered(unsafe { $table_task(&mut self.handle, task, &mut row) }).ok().map(|()| row)
            })
        }

        /// A thread's task, the commands sent to it, and those that its kept record acknowledges.
        pub fn thread(&mut self, thread: usize) -> Option<Thread> {
            let mut state = Thread::default();
            answered(unsafe { $thread(&mut self.handle, thread, &mut state) }).ok().map(|()| state)
        }

        /// What the page of a thread must show once the thread is gone: 16 where there is no such thread, 21
        /// where no page can show it. With this look a scheduler's pass frees its core, and a guard permits the pass that does.
        pub fn gone(&mut self, thread: usize) -> Result<Look, Refused> {
            let mut look = Look::default();
            answered(unsafe { $gone(&mut self.handle, thread, &mut look) }).map(|()| look)
        }

        /// What a task has, where the table has it.
        pub fn task(&mut self, task: usize) -> Option<Counts> {
            let mut counts = Counts::default();
            answered(unsafe { $task(&mut self.handle, task, &mut counts) }).ok()?;
            Some(counts)
        }

        /// The kept record of a thread, as a look in which all but the words is 0.
        pub fn kept(&mut self, thread: usize) -> Option<Look> {
            let mut look = Look::default();
            answered(unsafe { $kept(&mut self.handle, thread, &mut look) }).ok().map(|()| look)
        }
        }
    };
}

says!(Scheduler: caladan_first_unfit caladan_table caladan_table_task caladan_thread caladan_gone caladan_task caladan_kept);
says!(Guard: caladan_guard_first_unfit caladan_guard_table caladan_guard_table_task caladan_guard_thread caladan_guard_gone caladan_guard_task caladan_guard_kept);

/// Each closes what it opened.
macro_rules! closes {
    ($($Kept:ident $close:ident),*) => {$(
        impl Drop for $Kept {
            fn drop(&mut self) {
                unsafe { $close(&mut self.handle) };
            }
        }
    )*};
}

closes!(Scheduler caladan_close, Audit caladan_audit_close, Guard caladan_guard_close);

#[cfg(test)]
mod tests;
