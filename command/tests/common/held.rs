//! A batch in the middle of its work: it waits for addresses, so that what happens meanwhile is up to the test.
use super::{Bench, Ran};
use std::io::Write;
use std::process::{Child, ChildStdin, Command, Stdio};

/// Far more than what a pipe and the blocks of one core hold: a batch that has taken it has read its capture and has begun to write.
pub const LINES: usize = 700_000;
const LINE: &[u8] = b"0x1008\n";

pub struct Held {
    child: Child,
    addresses: ChildStdin,
}

impl Held {
    /// Starts a batch of the words given, which has its addresses from here, and feeds it.
    pub fn batch(bench: &Bench, words: &str) -> Held {
        let mut command = bench.command(&bench.words(&format!("batch --addresses - {words}")));
        // One core, so that it is known how much is taken before anything is written.
        command.env("RAYON_NUM_THREADS", "1").stdin(Stdio::piped()).stdout(Stdio::piped()).stderr(Stdio::piped());
        let mut child = command.spawn().expect("the command runs");
        let addresses = child.stdin.take().expect("its standard input");
        let mut held = Held { child, addresses };
        held.feed(&LINE.repeat(LINES));
        held
    }

    pub fn feed(&mut self, lines: &[u8]) {
        self.addresses.write_all(lines).expect("the command takes addresses");
    }

    pub fn id(&self) -> u32 {
        self.child.id()
    }

    /// No more addresses.
    pub fn end(self) -> Ran {
        drop(self.addresses);
        self.child.wait_with_output().expect("the command ends").into()
    }

    /// Ends it by a signal.
    pub fn signal(self, name: &str) -> Ran {
        let sent = Command::new("kill").args([&format!("-{name}"), &self.child.id().to_string()]).status().expect("kill runs");
        assert!(sent.success(), "the signal {name} was not sent");
        // The addresses stay open until it has ended, or their end could come before the signal.
        let Held { child, addresses } = self;
        let output = child.wait_with_output().expect("the command ends");
        drop(addresses);
        output.into()
    }
}
