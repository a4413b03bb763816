//! Reads a task table, a line ---, and a history on standard input, hands its passes to an audit one after
//! the other, and prints 'legal', or 'illegal pass' and the first that is not, as caladan_sim audit does.
//! Given the word guard it hands their actions to a guard, and prints 'permitted', or the first pass and
//! action that are not. Exits with 1 where one is not, with 2 where the input is refused. Given files it reads each
//! as such an input for the audit, and prints its line; of one that is refused 'refused'. With the words --policy NAME
//! before these it audits by that policy.

mod trace;

use caladan::{Audit, Guard, NotThrough, Policy, Verdict};
use std::io::Read;
use std::process::exit;
use trace::{machine_of, parts, policy_asked, Trace, Why};

/// What is said of an input, and whether all is legal or permitted.
type Said = Result<(String, bool), Why>;

fn audited(policy: Policy, text: &[u8]) -> Said {
    let (table, history) = parts(text)?;
    let (table, machine) = machine_of(table)?;
    let mut audit = Audit::open_by(table, policy).map_err(|_| "the table")?;
    let mut trace = Trace::begin(history, machine, true)?;
    while let Some(it) = trace.next_pass()? {
        audit.pass(it.now, it.bandwidth, &it.looks, &it.judged, &it.actions).map_err(|_| "a pass")?;
    }
    Ok(match audit.verdict() {
        Verdict::Legal => ("legal".to_string(), true),
        Verdict::Illegal { pass } => (format!("illegal pass {pass}"), false),
    })
}

fn guarded(text: &[u8]) -> Said {
    let (table, history) = parts(text)?;
    let (table, machine) = machine_of(table)?;
    let mut guard = Guard::open(table).map_err(|_| "the table")?;
    let mut trace = Trace::begin(history, machine, true)?;
    let mut number = 0;
    while let Some(it) = trace.next_pass()? {
        match guard.pass(it.now, it.bandwidth, &it.looks, &it.actions) {
            Ok(judged) if judged == it.judged => {}
            Ok(_) => return Ok((format!("judged otherwise in pass {number}"), false)),
            Err(NotThrough::Stopped(at)) => return Ok((format!("refused pass {number} action {} why {}", at.place, at.why), false)),
            Err(NotThrough::Refused(_)) => return Err("a pass"),
        }
        number += 1;
    }
    Ok(("permitted".to_string(), true))
}

fn status_of(said: &Said) -> i32 {
    match said {
        Ok((_, is_so)) => i32::from(!is_so),
        Err(_) => 2,
    }
}

/// Prints the line of each file; the greatest status of one.
fn audit_each(policy: Policy, files: &[String]) -> i32 {
    let mut greatest = 0;
    for file in files {
        let said = std::fs::read(file).map_err(|_| "no text").and_then(|text| audited(policy, &text));
        greatest = greatest.max(status_of(&said));
        println!("{}", said.map_or("refused".to_string(), |(line, _)| line));
    }
    greatest
}

/// What is said of standard input.
fn said_of_input(policy: Policy, guards: bool) -> Said {
    let mut text = Vec::new();
    std::io::stdin().read_to_end(&mut text).map_err(|_| "no text")?;
    if guards { guarded(&text) } else { audited(policy, &text) }
}

fn main() {
    let words: Vec<String> = std::env::args().skip(1).collect();
    let said = match policy_asked(&words) {
        Ok((policy, files)) if files != ["guard"] && !files.is_empty() => exit(audit_each(policy, files)),
        Ok((policy, rest)) => said_of_input(policy, !rest.is_empty()),
        Err(why) => Err(why),
    };
    match &said {
        Ok((line, _)) => println!("{line}"),
        Err(why) => eprintln!("audit: {why}"),
    }
    exit(status_of(&said))
}
