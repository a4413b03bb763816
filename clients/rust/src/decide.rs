//! Reads a task table, a line ---, and a file of signals on standard input, makes the passes, and prints
//! the report of caladan_sim. With the words --policy NAME it does so by that policy. Exits with 2 where the words or the
//! input are refused.

mod trace;

use caladan::{Action, Policy, Scheduler};
use std::fmt::Write;
use std::io::Read;
use std::process::exit;
use trace::{machine_of, parts, policy_asked, Trace, Why};

fn told(it: &Action) -> String {
    match (it.kind, it.cause) {
        (1, _) => format!("free core {}", it.core),
        (2, _) => format!("unban core {}", it.core),
        (3, _) => format!("ban core {} for thread {} started {}", it.core, it.thread, it.started),
        (4, 1) => format!("revoke core {} for ban by core {}", it.core, it.by),
        (4, 2) => format!("revoke core {} for bandwidth", it.core),
        (4, _) => format!("revoke core {} for task {}", it.core, it.task),
        (5, _) => format!("cap task {} at {}", it.task, it.cap),
        _ => format!("grant core {} to thread {} class {}", it.core, it.thread, it.core_class),
    }
}

/// The lines of a pass.
fn lines_of(pass: usize, now: u64, bandwidth: u64, actions: &[Action], judged: &[u8]) -> String {
    let mut lines = format!("pass {pass} now {now} bandwidth {bandwidth}\n");
    for (k, it) in judged.iter().enumerate().filter(|(_, it)| **it != 1) {
        let _ = writeln!(lines, "  kept {k} {}", ["busy", "ahead", "foreign"][usize::from(*it) - 2]);
    }
    for action in actions {
        let _ = writeln!(lines, "  {}", told(action));
    }
    lines
}

/// The lines of the end.
fn end_of(scheduler: &mut Scheduler, passes: usize) -> String {
    let mut lines = format!("end {passes} passes\n");
    let kinds: Vec<u8> = scheduler.table().map(|row| row.kind).collect();
    for (task, kind) in kinds.into_iter().enumerate() {
        let has = scheduler.task(task).unwrap_or_default();
        let (kind, cap) = if kind == 2 { ("be", format!(" cap {}", has.cap)) } else { ("lc", String::new()) };
        let _ = writeln!(lines, "task {task} {kind} held {} leaving {}{cap}", has.held, has.booked - has.held);
    }
    lines
}

/// The report of an input, kept until all of it was accepted.
fn report(policy: Policy, text: &[u8]) -> Result<String, Why> {
    let (table, signals) = parts(text)?;
    let (table, machine) = machine_of(table)?;
    let mut scheduler = Scheduler::open_by(table, policy).map_err(|_| "the table")?;
    let mut trace = Trace::begin(signals, machine, false)?;
    let (mut report, mut passes) = (String::new(), 0);
    while let Some(it) = trace.next_pass()? {
        let (actions, judged) = scheduler.pass(it.now, it.bandwidth, &it.looks).map_err(|_| "a pass")?;
        report += &lines_of(passes, it.now, it.bandwidth, actions, judged);
        passes += 1;
    }
    Ok(report + &end_of(&mut scheduler, passes))
}

/// What these words and standard input ask for.
fn decided(words: &[String]) -> Result<String, Why> {
    let (policy, rest) = policy_asked(words)?;
    let mut text = Vec::new();
    if !rest.is_empty() {
        return Err("the words");
    }
    std::io::stdin().read_to_end(&mut text).map_err(|_| "no text")?;
    report(policy, &text)
}

fn main() {
    let words: Vec<String> = std::env::args().skip(1).collect();
    match decided(&words) {
        Ok(report) => print!("{report}"),
        Err(why) => {
            eprintln!("decide: {why}");
            exit(2)
        }
    }
}
