//! Where a driver's commands go: to another host, which is compared at once.

use crate::command::Command;
use crate::desk::Desk;
use crate::difference::Difference;
use crate::host::Host;

/// Takes each command with what it must leave; the first difference ends the script.
pub trait Sink {
    fn take(&mut self, command: &Command, expected: &[u8]) -> Result<(), Box<Difference>>;
}

/// Has another host obey the same commands at a desk of its own.
pub struct Beside<H> {
    host: H,
    desk: Desk,
    before: Desk,
    left: Vec<u8>,
    commands: u64,
}

impl<H: Host> Beside<H> {
    pub fn new(host: H) -> Beside<H> {
        Beside {
            host,
            desk: Desk::default(),
            before: Desk::default(),
            left: Vec::new(),
            commands: 0,
        }
    }
}

impl<H: Host> Sink for Beside<H> {
    fn take(&mut self, command: &Command, expected: &[u8]) -> Result<(), Box<Difference>> {
        self.commands += 1;
        self.before.clone_from(&self.desk);
        self.left.clear();
        self.desk.obey(&self.host, command, &mut self.left);
        if self.left == expected {
            return Ok(());
        }
        Err(Box::new(Difference {
            number: self.commands,
            command: command.clone(),
            before: self.before.clone(),
            expected: expected.to_vec(),
            left: self.left.clone(),
        }))
    }
}
