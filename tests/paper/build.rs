//! Makes a program of each slip for the tests.

use std::path::Path;
use std::{env, fs, process};

#[path = "slips.rs"]
mod slips;

use slips::{File, Slip};

/// The files of the paper: src/paper.rs, and the audit, the compare and the batch that are modules of it.
fn read_paper() -> [String; 4] {
    ["src/paper.rs", "src/paper/audit.rs", "src/paper/beside.rs", "src/paper/batch.rs"].map(|path| {
        println!("cargo:rerun-if-changed={path}");
        fs::read_to_string(path).unwrap_or_else(|error| stop(&format!("{path}: {error}")))
    })
}

/// What stands for the audit where the slip is not in it: the crate's own, so that it is not built for each slip.
const OWN_AUDIT: &str = "impl super::Heap<'_> {
    pub(super) fn audit(&mut self) -> u32 {
        let (memory, books, map) = (&mut *self.lent.memory, &mut *self.lent.books, &mut *self.lent.map);
        super::Calls::audit(&mut heskavern_paper::Paper::default(), super::Lent { memory, books, map })
    }
}";

/// The same for the compare.
const OWN_COMPARE: &str = "use super::{Answer, Calls, LentToRead, Refused};
pub(super) fn compare(first: LentToRead, second: LentToRead, list: &mut [u32], changes: &mut [i32]) -> Refused<usize> {
    match heskavern_paper::Paper::default().compare(first, second, list, changes) {
        Answer { number: 0, value } => Ok(value as usize),
        refusal => Err(refusal),
    }
}";

/// And for the batch, whose slips are not those of an ask.
const OWN_BATCH: &str = "use super::{Answer, Calls, Lent, Paper, Refused, Request};
pub(super) fn ask_all(_: &mut Paper, lent: Lent, requests: &mut [Request]) -> Refused<usize> {
    match heskavern_paper::Paper::default().ask_all(lent, requests) {
        Answer { number: 0, value } => Ok(value as usize),
        refusal => Err(refusal),
    }
}";

/// The file of a slip with it.
fn slipped(paper: &[String; 4], slip: &Slip) -> String {
    let text = &paper[slip.file as usize];
    if text.matches(slip.old).count() != 1 {
        stop(&format!("slips.rs, '{}': its old text must stand exactly once in its file", slip.name));
    }
    text.replace(slip.old, slip.new)
}

/// The paper as a module that finds the crate's names where src/paper.rs finds them, with more at its end.
fn module(name: &str, paper: &str, audit: &str, more: &str) -> String {
    let text = paper.replace("\nmod audit;\n", &format!("\nmod audit {{\n{audit}\n}}\n"));
    let text = text.replace("\nmod batch;\n", &format!("\nmod batch {{\n{OWN_BATCH}\n}}\n"));
    let text = text.replace("\nmod beside;\n", &format!("\nmod beside {{\n{OWN_COMPARE}\n}}\n"));
    format!("#[allow(warnings)]\nmod {name} {{\nuse heskavern_paper::*;\npub mod paper {{\n{text}\n{more}}}\n}}\n")
}

/// The compare with a slip, as a module of the paper and a function that is called in the paper's place.
fn compare_with_slip(paper: &[String; 4], n: usize, slip: &Slip) -> String {
    let text = slipped(paper, slip);
    format!(
        "mod slip_{n} {{\n{text}\n}}
        pub fn compare_{n}(first: LentToRead, second: LentToRead, list: &mut [u32], changes: &mut [i32]) -> Answer {{
            answer(slip_{n}::compare(first, second, list, changes))
        }}\n"
    )
}

/// The same for the batch.
fn batch_with_slip(paper: &[String; 4], n: usize, slip: &Slip) -> String {
    let text = slipped(paper, slip);
    format!(
        "mod slip_{n} {{\n{text}\n}}
        pub fn ask_all_{n}(lent: Lent, requests: &mut [Request]) -> Answer {{
            answer(slip_{n}::ask_all(&mut Paper::default(), lent, requests))
        }}\n"
    )
}

/// A program for each slip. Those to the compare and the batch are the paper but for that call, and share one module.
fn write_slips() {
    println!("cargo:rerun-if-changed=slips.rs");
    let paper = read_paper();
    let (mut modules, mut shared, mut list) = (String::new(), String::new(), String::new());
    for (n, slip) in slips::ALL.into_iter().flatten().enumerate() {
        let (name, text) = (format!("slip_{n}"), || slipped(&paper, slip));
        match slip.file {
            File::Paper => modules += &module(&name, &text(), OWN_AUDIT, ""),
            File::Audit => modules += &module(&name, &paper[0], &text(), ""),
            File::Beside => shared += &compare_with_slip(&paper, n, slip),
            File::Batch => shared += &batch_with_slip(&paper, n, slip),
        }
        list += &match slip.file {
            File::Beside => format!("Box::new(ButForOne::new(One::Compare(shared::paper::compare_{n}))), "),
            File::Batch => format!("Box::new(ButForOne::new(One::AskAll(shared::paper::ask_all_{n}))), "),
            _ => format!("Box::new({name}::paper::Paper::default()), "),
        };
    }
    modules += &module("shared", &paper[0], OWN_AUDIT, &shared);
    modules += &format!("pub fn programs() -> Vec<Box<dyn heskavern_paper::Calls>> {{ vec![{list}] }}\n");
    let out = env::var("OUT_DIR").unwrap_or_else(|_| stop("cargo gave no OUT_DIR"));
    fs::write(Path::new(&out).join("broken.rs"), modules).unwrap_or_else(|error| stop(&format!("broken.rs: {error}")));
}

fn stop(message: &str) -> ! {
    eprintln!("{message}");
    process::exit(1)
}

fn main() {
    println!("cargo:rerun-if-changed=build.rs");
    write_slips();
}
