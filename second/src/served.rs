//! The library in a process of its own, behind two pipes: `box.c` says what goes over them.
//!
//! So the archive, which is for x86-64, is compared on any machine that can run it at all. The process never outlives its `Served`,
//! and whoever ends the whole program calls `end` before: a process that hangs in a step would not see that its pipes are closed.

use std::io::{self, Read, Write};
use std::process::{Child, ChildStdin, ChildStdout, Command, Stdio};
use std::sync::Mutex;

use crate::steps::{Checked, Compared, Count, Opened, Steps, Written};

pub struct Served {
    pipes: Mutex<Pipes>,
    // Beside the pipes, so that it can be ended while somebody waits for an answer.
    child: Mutex<Child>,
}

struct Pipes {
    requests: ChildStdin,
    answers: ChildStdout,
}

/// What the guards of `box.c` watch over, in its order.
const GUARDED: [&str; 10] = [
    "before the input",
    "in the input",
    "behind the input",
    "before the second input",
    "in the second input",
    "behind the second input",
    "before the area",
    "behind the area",
    "before the work area",
    "behind the work area",
];

/// The result's fields, in the order of the C struct.
struct Answer {
    number: u32,
    place: usize,
    fields: [u64; 4],
}

impl Served {
    /// Starts the process that a command names.
    pub fn start(command: &[String]) -> io::Result<Self> {
        let (program, arguments) =
            command.split_first().ok_or_else(|| io::Error::other("no command"))?;
        let mut child = Command::new(program)
            .args(arguments)
            .stdin(Stdio::piped())
            .stdout(Stdio::piped())
            .spawn()?;
        let requests = child.stdin.take().ok_or_else(|| io::Error::other("no pipe to it"))?;
        let answers = child.stdout.take().ok_or_else(|| io::Error::other("no pipe from it"))?;
        Ok(Served { pipes: Mutex::new(Pipes { requests, answers }), child: Mutex::new(child) })
    }

    /// Ends the process, whatever it is doing.
    pub fn end(&self) {
        let mut child = self.child.lock().expect("nobody fails while ending it");
        // Only a process that has ended already is not there to be ended.
        let _ = child.kill();
        let _ = child.wait();
    }

    fn ask(
        &self,
        step: u8,
        input: &[u8],
        other: &[u8],
        area: &mut [u8],
        work: &mut [u16],
    ) -> Answer {
        let mut pipes = self.pipes.lock().expect("nobody fails while asking");
        pipes
            .ask(step, input, other, area, work)
            .unwrap_or_else(|error| panic!("the library's process failed: {error}"))
    }
}

impl Drop for Served {
    fn drop(&mut self) {
        self.end();
    }
}

impl Pipes {
    fn ask(
        &mut self,
        step: u8,
        input: &[u8],
        other: &[u8],
        area: &mut [u8],
        work: &mut [u16],
    ) -> io::Result<Answer> {
        let mut request = Vec::new();
        for number in [step.into(), input.len(), other.len(), area.len(), work.len()] {
            request.extend((number as u64).to_le_bytes());
        }
        request.extend_from_slice(input);
        request.extend_from_slice(other);
        request.extend_from_slice(area);
        request.extend(work.iter().flat_map(|number| number.to_le_bytes()));
        self.requests.write_all(&request)?;

        let mut result = [0; 7];
        for number in &mut result {
            *number = self.number()?;
        }
        self.answers.read_exact(area)?;
        let mut bytes = vec![0; 2 * work.len()];
        self.answers.read_exact(&mut bytes)?;
        for (number, pair) in work.iter_mut().zip(bytes.chunks_exact(2)) {
            *number = u16::from_le_bytes([pair[0], pair[1]]);
        }
        let [number, place, a, b, c, d, touched] = result;
        if touched != 0 {
            let guarded = GUARDED.get(touched as usize - 1).unwrap_or(&"somewhere");
            return Err(io::Error::other(format!("it wrote {guarded}")));
        }
        Ok(Answer { number: number as u32, place: place as usize, fields: [a, b, c, d] })
    }

    fn number(&mut self) -> io::Result<u64> {
        let mut bytes = [0; 8];
        self.answers.read_exact(&mut bytes)?;
        Ok(u64::from_le_bytes(bytes))
    }
}

impl Steps for Served {
    fn name(&self) -> &'static str {
        "library, in a process of its own"
    }

    fn open(&self, block: &[u8]) -> Opened {
        let Answer { number, place, fields } = self.ask(b'o', block, &[], &mut [], &mut []);
        Opened { number, place, start: fields[0] as usize, length: fields[1] as usize }
    }

    fn frame(&self, payload: &[u8], area: &mut [u8]) -> Written {
        let Answer { number, place, fields } = self.ask(b'f', payload, &[], area, &mut []);
        Written { number, place, length: fields[0] as usize }
    }

    fn check(&self, payload: &[u8]) -> Checked {
        let Answer { number, place, fields } = self.ask(b'c', payload, &[], &mut [], &mut []);
        let [signals, channels, ranks, pairs] = fields.map(|field| field as u32);
        Checked { number, place, signals, channels, ranks, pairs }
    }

    fn compare(&self, first: &[Count], second: &[Count]) -> Compared {
        let Answer { number, place, fields } = self.ask(b'l', first, second, &mut [], &mut []);
        Compared { number, place, order: fields[0] as i32 }
    }

    fn handle(&self, block: &[u8], area: &mut [u8], work: &mut [u16]) -> Written {
        let Answer { number, place, fields } = self.ask(b'h', block, &[], area, work);
        Written { number, place, length: fields[0] as usize }
    }
}
