//! The port and the Rust in one process, held against each other.
//!
//!     compare [SEED [PATTERNS]]       compares them on random files and edits
//!     compare speed                   the time of reports and edits on both sides (speed.rs)
//!
//! A comparison prints how many calls of each kind were compared and how many differed, and
//! ends with status 1 if any did.  The same seed makes the same files and edits.  For each kind
//! of difference the smallest input found is left in target/compare/KIND: `pattern`, `edits`
//! (lines as tools/oracle takes them) and `answers`.  With PROGRESS in the environment it says
//! on standard error how far it is.

mod compare;
mod draft;
mod edits;
mod patterns;
mod port;
mod shrink;
mod speed;

use compare::{Comparison, Difference, Row};
use draft::Draft;
use edits::{Aim, Asked, Room};
use patterns::Random;
use shrink::Case;
use std::collections::BTreeMap;
use std::process::ExitCode;
use std::slice::from_ref;

/// Edits of each accepted pattern as it was read, and at most in a chain.
const EDITS: usize = 48;
const CHAIN: usize = 12;

#[derive(Default)]
struct Run {
    both: Comparison,
    /// For the smaller inputs, which are not counted.
    scratch: Comparison,
    /// For each row the first difference, with the smallest input found for it.
    kept: BTreeMap<Row, (Case, Difference)>,
}

impl Run {
    /// Keeps what differed. The first of the cases that shows it alone is shrunk.
    fn keep(&mut self, cases: impl Fn() -> Vec<Case>) {
        for difference in std::mem::take(&mut self.both.differences) {
            let row = difference.row;
            if self.kept.contains_key(&row) {
                continue;
            }
            let mut cases = cases();
            let scratch = &mut self.scratch;
            let shown = cases.iter().position(|case| case.difference(scratch, row).is_some());
            let case = cases.swap_remove(shown.unwrap_or(0)).shrunk(scratch, row);
            let smallest = case.difference(scratch, row);
            self.kept.insert(row, (case, smallest.unwrap_or(difference)));
        }
    }

    /// One file, edits of it, and a chain of edits.
    fn pattern(&mut self, rng: &mut Random) {
        let case = |file: &[u8], edits: &[Asked]| Case { file: file.into(), edits: edits.into() };
        let file = patterns::file(rng);
        let read = self.both.file(&file);
        self.keep(|| vec![case(&file, &[])]);
        let Some(read) = read else { return };
        let draft = Draft::of(&read, &file);
        assert!(draft.file() == file, "the pattern that was read, encoded again");
        let aim = Aim::at(&draft);
        for _ in 0..EDITS {
            let asked = aim.edit(rng);
            self.both.edit(&file, &read, &asked);
            self.keep(|| vec![case(&file, from_ref(&asked))]);
        }
        let (mut now, mut pattern, mut edits) = (file.clone(), read, Vec::new());
        for _ in 0..CHAIN {
            let draft = Draft::of(&pattern, &now);
            let asked = Asked { edit: Aim::at(&draft).shell_edit(rng), room: [Room::Ample; 2] };
            let edited = self.both.edit(&now, &pattern, &asked);
            edits.push(asked);
            self.keep(|| vec![case(&now, &edits[edits.len() - 1..]), case(&file, &edits)]);
            match edited {
                Some(edited) => (now, pattern) = edited,
                None => drop(edits.pop()),
            }
        }
        self.both.chain_end(&now, &pattern);
        self.keep(|| vec![case(&now, &[]), case(&file, &edits)]);
    }

    /// Prints the table; how many differed.
    fn table(&self) -> u64 {
        println!("{:34}{:>12}{:>12}", "", "compared", "differed");
        let mut all = [0, 0];
        for ((kind, outcome), counts) in &self.both.rows {
            println!("{:14}{outcome:20}{:>12}{:>12}", format!("{kind:?}"), counts[0], counts[1]);
            all = [all[0] + counts[0], all[1] + counts[1]];
        }
        println!("{:34}{:>12}{:>12}", "all", all[0], all[1]);
        println!("{:34}{:>12}", "bytes written", self.both.bytes);
        all[1]
    }

    /// Writes the smallest inputs to target/compare.
    fn write_kept(&self) -> std::io::Result<()> {
        for ((kind, outcome), (case, difference)) in &self.kept {
            let name = format!("{kind:?} {outcome}").to_lowercase().replace(' ', "-");
            let folder = format!("target/compare/{name}");
            let mut lines: Vec<_> = case.edits.iter().map(|asked| asked.edit.to_string()).collect();
            if let (Some(last), false) = (lines.last_mut(), difference.edit.is_empty()) {
                *last = difference.edit.clone();
            }
            let edits: String = lines.iter().map(|line| format!("{line}\n")).collect();
            let answers = format!("port {}\nRust {}\n", difference.port, difference.rust);
            std::fs::create_dir_all(&folder)?;
            std::fs::write(format!("{folder}/pattern"), &case.file)?;
            std::fs::write(format!("{folder}/edits"), &edits)?;
            std::fs::write(format!("{folder}/answers"), &answers)?;
            println!("\n{folder}, {} bytes\n{edits}{answers}", case.file.len());
        }
        Ok(())
    }
}

fn compare(seed: u64, count: u64) -> std::io::Result<ExitCode> {
    let mut run = Run::default();
    let progress = std::env::var_os("PROGRESS").is_some();
    for k in 0..count {
        if progress && k % 1000 == 0 {
            eprintln!("{k} of {count}");
        }
        run.pattern(&mut Random(seed.wrapping_mul(0x2545_f491_4f6c_dd1d).wrapping_add(k << 32)));
    }
    println!("seed {seed}, {count} patterns\n");
    let differed = run.table();
    run.write_kept()?;
    Ok(if differed > 0 { ExitCode::FAILURE } else { ExitCode::SUCCESS })
}

fn main() -> std::io::Result<ExitCode> {
    let args: Vec<String> = std::env::args().skip(1).collect();
    if args.first().is_some_and(|word| word == "speed") {
        speed::table();
        return Ok(ExitCode::SUCCESS);
    }
    let number = |k: usize| args.get(k).map(|word| word.parse().expect("a number"));
    compare(number(0).unwrap_or(1), number(1).unwrap_or(22_000))
}
