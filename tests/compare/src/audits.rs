//! Compares the proved audit with the independent one.
use crate::audit::audit;
use crate::audit_classes::Classes;
use crate::audit_damage::Audits;
use crate::proved::{self, AuditWords};
use crate::vectors::{audit_answer_text, audit_text, AuditLine};
use crate::walk::{Bank, Capture};
use crate::{blamed, unread, PRINTED};

pub fn print(ours: &AuditWords, proved: &AuditWords) {
    for (name, words) in [("audit ", ours), ("proved", proved)] {
        println!("  {name}: {} | {words:x?}", audit_answer_text(words));
    }
}

/// Holds both to one line. Says why it does not hold, if it does not.
pub fn hold(text: &str) -> bool {
    let line = match AuditLine::read(text) {
        Some(line) => line,
        None => return unread(text),
    };
    let capture = Capture::Raw(Bank::whole(line.base, &line.bytes));
    let ours = AuditWords::from(&audit(&line.question, capture, &line.lists));
    let proved = proved::audit(&line.question, capture, &line.lists);
    let why = blamed(line.agrees(&ours), line.agrees(&proved)).or_else(|| difference(&ours, &proved, true));
    if let Some(why) = why {
        println!("{why}: {text}");
        print(&ours, &proved);
    }
    why.is_none()
}

/// Why the two do not agree, if they do not.
fn difference(ours: &AuditWords, proved: &AuditWords, kept: bool) -> Option<&'static str> {
    if ours != proved {
        Some("the answers differ")
    } else if !kept {
        Some("the capture or a list was written")
    } else {
        None
    }
}

/// Compares COUNT random audits. How many differ, and what was not met.
pub fn compare(count: u64, seed: u64) -> (u64, Vec<String>) {
    let mut audits = Audits::new(seed);
    let mut classes = Classes::new();
    let mut differ = 0;
    for _ in 0..count {
        let (image, asked) = audits.next();
        let (q, bank, lists) = (&asked.question, asked.part.bank(image), &asked.lists);
        let before = lists.clone();
        let verdict = audit(q, Capture::Raw(bank), lists);
        let ours = AuditWords::from(&verdict);
        let proved = proved::audit(q, Capture::Raw(bank), lists);
        classes.meet(q, bank, lists, &verdict);
        if let Some(why) = difference(&ours, &proved, image.kept() && *lists == before) {
            differ += 1;
            if differ <= PRINTED {
                println!("{why}: {} | {}", audit_text(q, asked.part.bank(image), lists), audit_answer_text(&ours));
                print(&ours, &proved);
            }
        }
    }
    classes.0.print();
    (differ, classes.0.missed())
}
