//! A ledger: the total of a tree of accounts, whose amounts change, and whose branches are closed and opened again.
//!
//!     rustc --edition 2021 -O examples/rust/ledger.rs -L FOLDER -l static=ceal -o ledger && ./ledger [EDITS [SEED]]
//!
//! FOLDER has libceal.a. The program is examples/sum_tree.ceal. After each update the total is compared with a sum in Rust.

mod ceal;

use ceal::{Error, Session};

const ACCOUNTS: usize = 1023;
const SOURCE: &str = "examples/sum_tree.ceal";

/// The accounts as a heap has them: those below account `n` are `2 n + 1` and `2 n + 2`.
struct Ledger {
    amounts: Vec<i64>,
    is_closed: Vec<bool>,
}

impl Ledger {
    fn total(&self, account: usize) -> i64 {
        if account >= ACCOUNTS || self.is_closed[account] {
            return 0;
        }
        self.amounts[account] + self.total(2 * account + 1) + self.total(2 * account + 2)
    }
}

/// Numbers that are the same everywhere.
struct Numbers(u32);

impl Numbers {
    fn below(&mut self, most: usize) -> usize {
        self.0 = self.0.wrapping_mul(1664525).wrapping_add(1013904223);
        (self.0 >> 8) as usize % most
    }
}

/// The name of an account's node, or null where there is none.
fn node(account: usize) -> String {
    if account < ACCOUNTS {
        format!("n{account}")
    } else {
        "null".to_string()
    }
}

/// The line that lets an account be seen by the one above it, or no longer.
fn branch(account: usize, is_closed: bool) -> String {
    let side = if account % 2 == 1 { "left" } else { "right" };
    let below = if is_closed {
        "null".to_string()
    } else {
        node(account)
    };
    format!("set n{}.{side} {below}", (account - 1) / 2)
}

fn open(ledger: &Ledger) -> Result<Session, Box<dyn std::error::Error>> {
    let mut session = Session::open(&std::fs::read(SOURCE)?, 4_194_304)?;
    for account in (0..ACCOUNTS).rev() {
        let (left, right) = (node(2 * account + 1), node(2 * account + 2));
        session.line(&format!(
            "new n{account} node {} {left} {right}",
            ledger.amounts[account]
        ))?;
    }
    for line in ["mod root node n0", "mod total int 0", "run sum root total"] {
        session.line(line)?;
    }
    Ok(session)
}

/// What is not accepted is an error, and the session goes on.
fn try_refusals(session: &mut Session) -> Result<bool, Error> {
    let is_fault = matches!(Session::open(b"ceal f(int a) { b = 1; }\n%%\n", 9), Err(Error::Fault(line)) if line.starts_with("fault "));
    let is_unnamed = matches!(session.find("nobody"), Err(Error::Status(2)));
    let is_graph = session.line("show root")?.ends_with(b"\nend\n");
    Ok(is_fault && is_unnamed && is_graph)
}

fn main() -> Result<(), Box<dyn std::error::Error>> {
    let mut words = std::env::args().skip(1).map(|it| it.parse::<u32>());
    let edits = words.next().transpose()?.unwrap_or(300);
    let mut numbers = Numbers(words.next().transpose()?.unwrap_or(1));
    let amounts = (0..ACCOUNTS).map(|_| numbers.below(1000) as i64).collect();
    let mut ledger = Ledger {
        amounts,
        is_closed: vec![false; ACCOUNTS],
    };
    let mut session = open(&ledger)?;
    let handles = (0..ACCOUNTS)
        .map(|it| session.find(&format!("n{it}.number")))
        .collect::<Result<Vec<_>, _>>()?;
    let total = session.find("total")?;
    if session.get(total)? != ledger.total(0) || !try_refusals(&mut session)? {
        return Err("the ledger begins wrong".into());
    }
    let (steps, mut work) = (session.ask("steps")?, 0);
    for edit in 0..edits {
        let account = 1 + numbers.below(ACCOUNTS - 1);
        if numbers.below(4) == 0 {
            ledger.is_closed[account] = !ledger.is_closed[account];
            session.line(&branch(account, ledger.is_closed[account]))?;
        } else {
            ledger.amounts[account] = numbers.below(1000) as i64;
            session.set(handles[account], ledger.amounts[account])?;
        }
        if edit % 2 == 0 {
            session.propagate()?;
        } else {
            while !session.propagate_part(3)? {}
        }
        work += session.ask("work")?;
        if session.get(total)? != ledger.total(0) {
            return Err(format!("the total is wrong after edit {edit}").into());
        }
    }
    println!(
        "{edits} edits: each total is as summed in Rust; a run took {steps} steps, an update {}",
        work / i64::from(edits.max(1))
    );
    Ok(())
}
