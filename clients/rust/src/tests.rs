//! The calls of the wrapper, once each.

use super::{text_of_rows, Ban, Counts, Holder, Last, TableTask, CLOSED};
use super::{history_of_each, Action, Audit, Command, Guard, Judged, Look, Machine, NotThrough, Policy, Refused, Scheduler, Stopped, Thread, Verdict, WORDS};

const TABLE: &str = "cores = 2\nbandwidth_limit = 1000\n\n[[task]]\nkind = \"lc\"\nguaranteed = 1\nlimit = 1\ndelay = 10\nrequest = 50\n";

/// The words of a record that has these, and else 0.
fn words(named: &[(&str, u64)]) -> [u64; WORDS.len()] {
    std::array::from_fn(|k| named.iter().find(|it| it.0 == WORDS[k]).map_or(0, |it| it.1))
}

#[test]
fn one_grant() {
    let mut scheduler = Scheduler::open(TABLE).unwrap();
    assert_eq!(scheduler.pass(111, 0, &[]), Err(Refused(13)));
    let (actions, judged) = scheduler.pass(111, 0, &[waits()]).unwrap();
    assert_eq!((actions.len(), actions[0].kind, actions[0].core_class, judged), (1, 6, 3, &[1u8][..]));
    assert_eq!(scheduler.task(0).unwrap().held, 1);
    assert_eq!(scheduler.task(1), None);
}

fn waits() -> Look {
    Look { room: 1, number: 1, words: words(&[("queued", 1), ("oldest", 100), ("stamp", 105)]), ..Look::default() }
}

fn grant(class: u8) -> Action {
    Action { kind: 6, core_class: class, ..Action::default() }
}

#[test]
fn one_lie_stops_nobody() {
    let mut scheduler = Scheduler::open(TABLE).unwrap();
    let lie = Look { room: 1, number: 1, words: words(&[("running", 129)]), ..Look::default() };
    assert_eq!(scheduler.pass(111, 0, &[lie]), Err(Refused(15)));
    assert_eq!(scheduler.first_unfit(&[lie]), Ok(Some(0)));
    let (actions, judged) = scheduler.pass_each(111, 0, &[lie]).unwrap();
    assert_eq!((actions.len(), judged.collect::<Vec<_>>()), (0, vec![Judged::Misshapen]));
    assert_eq!(scheduler.first_unfit(&[waits()]), Ok(None));
    let _ = scheduler.pass_each(112, 0, &[waits()]).unwrap();
    assert_eq!(scheduler.commands().collect::<Vec<_>>(), [(0, Command::Run { core: 0 })]);
    assert_eq!(scheduler.thread(0), Some(Thread { task: 0, sent: 1, taken: 0 }));
    assert_eq!(scheduler.thread(1), None);
    let gone = scheduler.gone(0).unwrap();
    assert_eq!((gone.number, gone.words), (2, words(&[("taken", 1), ("stamp", 105)])));
    assert_eq!(scheduler.gone(1), Err(Refused(16)));
    let (actions, _) = scheduler.pass_each(113, 0, &[gone]).unwrap();
    assert_eq!(actions[0].kind, 1);
    assert_eq!(scheduler.machine(), Machine { cores: 2, tasks: 1, threads: 1, bandwidth_limit: 1000 });
    assert_eq!(scheduler.table().map(|task| task.delay).collect::<Vec<_>>(), [10]);
}

#[test]
fn audit_names_the_pass() {
    let mut audit = Audit::open(TABLE).unwrap();
    assert_eq!(audit.pass(111, 0, &[waits()], &[], &[]), Err(Refused(13)));
    audit.pass(111, 0, &[waits()], &[1], &[grant(3)]).unwrap();
    assert_eq!(audit.verdict(), Verdict::Legal);
    audit.pass(112, 0, &[waits()], &[1], &[grant(3)]).unwrap();
    assert_eq!(audit.verdict(), Verdict::Illegal { pass: 1 });
}

/// A ban that only Caladan's policy makes: the free core beside a long request is the one that a short task waits for.
#[test]
fn each_policy_makes_its_own() {
    let row = TableTask { kind: 1, guaranteed: 1, limit: 1, delay: 10, request: 100, ..TableTask::default() };
    let table = text_of_rows(2, 1000, &[row, row]);
    let look = |number, named: &[(&str, u64)]| Look { room: 1, number, words: words(named), ..Look::default() };
    let first = [look(1, &[("queued", 1), ("oldest", 100), ("stamp", 190)]), look(0, &[])];
    let runs = look(2, &[("taken", 1), ("running", 1), ("started", 250), ("stamp", 380)]);
    let second = [runs, look(1, &[("queued", 1), ("oldest", 300), ("stamp", 310)])];
    for (policy, kind) in [(Policy::Caladan, 3), (Policy::Assured, 6)] {
        let mut scheduler = Scheduler::open_by(&table, policy).unwrap();
        let made = [(200, first), (400, second)].map(|(now, looks)| (now, looks, scheduler.pass(now, 0, &looks).unwrap().0.to_vec()));
        assert_eq!(made[1].2.iter().map(|it| it.kind).collect::<Vec<_>>(), [kind]);
        for other in Policy::ALL {
            let mut audit = Audit::open_by(&table, other).unwrap();
            for (now, looks, actions) in &made {
                audit.pass(*now, 0, looks, &[1, 1], actions).unwrap();
            }
            assert_eq!(audit.verdict(), if other == policy { Verdict::Legal } else { Verdict::Illegal { pass: 1 } });
        }
    }
    assert_eq!((Policy::named("assured"), Policy::named("caladan"), Policy::named("fifo")), (Some(Policy::Assured), Some(Policy::Caladan), None));
    assert_eq!(Scheduler::open_by("cores = 3\n", Policy::Assured).err(), Some(Refused(3)));
}

#[test]
fn guard_names_the_action() {
    let mut guard = Guard::open(TABLE).unwrap();
    let twice = guard.pass(111, 0, &[waits()], &[grant(1), grant(1)]);
    assert_eq!(twice, Err(NotThrough::Stopped(Stopped { place: 1, why: 2, names: 0 })));
    assert_eq!(guard.task(0).unwrap().held, 0);
    assert_eq!(guard.pass(111, 0, &[waits()], &[grant(1)]), Ok(&[1u8][..]));
    assert_eq!(guard.task(0).unwrap().held, 1);
    assert_eq!(guard.pass(112, 0, &[], &[]), Err(NotThrough::Refused(Refused(13))));
}

#[test]
fn one_lie_stops_no_guard() {
    let mut guard = Guard::open(TABLE).unwrap();
    let lie = Look { room: 1, number: 1, words: words(&[("running", 129)]), ..Look::default() };
    assert_eq!(guard.pass(111, 0, &[lie], &[]), Err(NotThrough::Refused(Refused(15))));
    assert_eq!(guard.first_unfit(&[lie]), Ok(Some(0)));
    let stopped = guard.pass_each(111, 0, &[lie], &[Action { kind: 1, ..Action::default() }]).err();
    assert_eq!(stopped, Some(NotThrough::Stopped(Stopped { place: 0, why: 2, names: 0 })));
    assert_eq!(guard.judged().collect::<Vec<_>>(), [Judged::Misshapen]);
    assert_eq!(guard.pass_each(111, 0, &[lie], &[grant(1)]).unwrap().collect::<Vec<_>>(), [Judged::Misshapen]);
    assert_eq!(guard.commands(&[grant(1)]).collect::<Vec<_>>(), [(0, Command::Run { core: 0 })]);
    assert_eq!(guard.thread(0), Some(Thread { task: 0, sent: 1, taken: 0 }));
    assert_eq!(guard.thread(1), None);
    let free = Action { kind: 1, ..Action::default() };
    let early = guard.pass_each(112, 0, &[waits()], &[free]).err();
    assert_eq!(early, Some(NotThrough::Stopped(Stopped { place: 0, why: 3, names: 0 })));
    let gone = guard.gone(0).unwrap();
    assert_eq!((gone.number, gone.words), (1, words(&[("taken", 1)])));
    assert_eq!(guard.gone(1), Err(Refused(16)));
    assert_eq!(guard.pass_each(112, 0, &[gone], &[free]).unwrap().collect::<Vec<_>>(), [Judged::Kept]);
    assert_eq!(guard.task(0).unwrap().booked, 0);
    assert_eq!(guard.pass_each(113, 0, &[], &[]).err(), Some(NotThrough::Refused(Refused(13))));
    assert_eq!(guard.machine(), Machine { cores: 2, tasks: 1, threads: 1, bandwidth_limit: 1000 });
    assert_eq!(guard.table().map(|task| task.delay).collect::<Vec<_>>(), [10]);
}

#[test]
fn what_a_policy_chooses_by() {
    let mut guard = Guard::open(TABLE).unwrap();
    let lie = Look { room: 1, number: 1, words: words(&[("running", 129)]), ..Look::default() };
    assert_eq!((guard.judge(&[lie]), guard.judge(&[waits()])), (Ok(vec![Judged::Misshapen]), Ok(vec![Judged::Kept])));
    assert_eq!(guard.judge(&[]), Err(Refused(13)));
    assert_eq!((guard.last(0), guard.ban(0)), (Some(Last::default()), Some(Ban::default())));
    assert!(guard.pass_each(111, 0, &[waits()], &[grant(3)]).is_ok());
    assert_eq!((guard.last(0), guard.last(2)), (Some(Last { granted: 1, thread: 0, task: 0 }), None));
    assert_eq!(guard.kept(0), Some(Look { room: 0, number: 0, ..waits() }));
    assert_eq!(guard.kept(1), None);
    assert!(guard.pass_each(112, 0, &[waits()], &[Action { kind: 3, core: 1, started: 7, ..Action::default() }]).is_ok());
    assert_eq!((guard.ban(1), guard.ban(2)), (Some(Ban { banned: 1, thread: 0, started: 7 }), None));
}

#[test]
fn rows_are_the_table() {
    let row = TableTask { kind: 1, guaranteed: 1, limit: 1, delay: 10, request: 50, ..TableTask::default() };
    let mut scheduler = Scheduler::open(&text_of_rows(2, 1000, &[row])).unwrap();
    assert_eq!((scheduler.machine().cores, scheduler.table().collect::<Vec<_>>()), (2, vec![row]));
    assert_eq!(scheduler.next_clock(0), None);
    assert_eq!(scheduler.pass(105, 0, &[waits()]).unwrap().0.len(), 0);
    assert_eq!(scheduler.next_clock(105), Some(111));
    assert_eq!(scheduler.pass(110, 0, &[waits()]).unwrap().0.len(), 0);
    assert_eq!(scheduler.pass(111, 0, &[waits()]).unwrap().0.len(), 1);
    let refused = |cores, limit, rows: &[TableTask]| Guard::open(&text_of_rows(cores, limit, rows)).err();
    let unfair = TableTask { kind: 2, ..row };
    assert_eq!((refused(3, 0, &[row]), refused(u64::MAX, 0, &[row]), refused(2, u64::MAX, &[row])), (Some(Refused(5)), Some(Refused(5)), Some(Refused(5))));
    assert_eq!((refused(2, 0, &[]), refused(2, 0, &[unfair]), refused(2, 0, &[row; 3])), (Some(Refused(5)), Some(Refused(6)), Some(Refused(7))));
}

#[test]
fn a_handle_moves_between_threads() {
    let mut scheduler = Scheduler::open(TABLE).unwrap();
    let made = std::thread::spawn(move || scheduler.pass(111, 0, &[waits()]).map(|it| it.0.len())).join().unwrap();
    assert_eq!(made, Ok(1));
}

#[test]
fn texts_and_history() {
    assert_eq!(Refused(21).to_string(), "no page can show that the thread is gone");
    assert_eq!(NotThrough::Stopped(Stopped { place: 3, why: 11, names: 1 }).to_string(), "action 3: a task is over its cap");
    assert_eq!((Judged::PlaceFell.to_string(), Action { cause: 3, ..Action::default() }.cause_text()), ("its place fell".to_string(), "for a task"));
    let rows = history_of_each(112, 7, &[waits(), waits()], [Judged::Kept, Judged::Ahead], &[grant(3)]);
    let rest = ",0".repeat(WORDS.len() - 7); // the words behind stamp
    assert_eq!(rows, format!("pass,112,7\nwhole,0,1,1,0,0,1,100,0,0,105{rest}\nbusy,1,1,1,1\ngrant,0,0,3\n"));
}

#[test]
fn no_table() {
    assert_eq!(Scheduler::open("cores = 3\n").err(), Some(Refused(3)));
}

/// The size and the places that the header says of a struct.
fn of_header(name: &str) -> (usize, Vec<(String, usize)>) {
    let header = include_str!("../../../include/caladan.h");
    let numbers = |start: &str| -> Vec<(String, usize)> {
        let lines = header.lines().filter_map(|line| line.strip_prefix(start)?.strip_suffix(");"));
        lines.map(|rest| rest.rsplit_once(", ").map_or(("", rest), |it| it)).map(|(field, number)| (field.to_string(), number.parse().unwrap())).collect()
    };
    (numbers(&format!("CALADAN_SIZE({name}, "))[0].1, numbers(&format!("CALADAN_PLACE({name}, ")))
}

/// The size of a struct, and the places of these fields in it.
macro_rules! layout {
    ($of:expr, $($field:ident),+) => {{
        let it = $of;
        let start = std::ptr::addr_of!(it) as usize;
        (std::mem::size_of_val(&it), vec![$((stringify!($field).to_string(), std::ptr::addr_of!(it.$field) as usize - start)),+])
    }};
}

/// Each struct has the size, and each field the place, that the header says of it.
#[test]
fn layout_is_the_headers() {
    let handle = layout!(CLOSED, open, at);
    for name in ["caladan", "caladan_audit", "caladan_guard"] {
        assert_eq!(handle, of_header(name), "{name}");
    }
    let action = layout!(Action::default(), kind, core, thread, core_class, cause, by, task, cap, started);
    assert_eq!(action, of_header("caladan_action"));
    assert_eq!(layout!(Holder::default(), state, thread, cause, cause_of), of_header("caladan_holder_of_core"));
    assert_eq!(layout!(Counts::default(), held, booked, cap), of_header("caladan_counts"));
    assert_eq!(layout!(Machine::default(), cores, tasks, threads, bandwidth_limit), of_header("caladan_machine"));
    let row = layout!(TableTask::default(), kind, guaranteed, limit, first_thread, delay, request);
    assert_eq!(row, of_header("caladan_table_row"));
    assert_eq!(layout!(Thread::default(), task, sent, taken), of_header("caladan_thread_state"));
    assert_eq!(layout!(Stopped::default(), place, why, names), of_header("caladan_refused"));
    assert_eq!(layout!(Ban::default(), banned, thread, started), of_header("caladan_core_ban"));
    assert_eq!(layout!(Last::default(), granted, thread, task), of_header("caladan_core_last"));
    let (size, mut places) = layout!(Look::default(), busy, room, number, second, words);
    let words = places.pop().unwrap().1;
    places.extend(WORDS.iter().enumerate().map(|(k, word)| (word.to_string(), words + 8 * k)));
    assert_eq!((size, places), of_header("caladan_look"));
    assert_eq!(include_str!("../../../include/caladan.h").lines().filter(|line| line.starts_with("CALADAN_SIZE(")).count(), 13);
}
