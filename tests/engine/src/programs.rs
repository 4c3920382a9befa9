//! The proved programs as they are run: input on standard input, and every byte
//! that they print.

use std::io::{ErrorKind, Write};
use std::path::Path;
use std::process::{Command, Stdio};

/// A program crates/NAME/out/NAME, which `tests/build NAME` and `rt ci` write.
#[derive(Clone, Copy, Debug)]
pub struct Program {
    name: &'static str,
    /// One byte more than its input may have; of longer input it reads no more.
    most_read: usize,
}

pub const LAY: Program = Program {
    name: "lay",
    most_read: 65_537,
};
pub const DRAW: Program = Program {
    name: "draw",
    most_read: 65_537,
};
pub const SHOW: Program = Program {
    name: "show",
    most_read: 65_537,
};
pub const SHEET: Program = Program {
    name: "sheet",
    most_read: 262_145,
};

/// All that a program has printed by its end.
#[derive(Clone, Debug, PartialEq, Eq)]
pub struct Printed {
    pub output: Vec<u8>,
    pub errors: Vec<u8>,
}

impl Program {
    /// What the program prints for this input, all of it by the end.
    pub fn run(&self, input: &[u8]) -> Printed {
        let name = self.name;
        let crates = Path::new(env!("CARGO_MANIFEST_DIR")).join("../../crates");
        let mut child = Command::new(crates.join(name).join("out").join(name))
            .stdin(Stdio::piped())
            .stdout(Stdio::piped())
            .stderr(Stdio::piped())
            .spawn()
            .unwrap_or_else(|error| panic!("crates/{name}/out/{name}: {error}"));
        let mut stdin = child.stdin.take().expect("piped");
        match stdin.write_all(input) {
            // It has ended, and left the rest.
            Err(error) if error.kind() == ErrorKind::BrokenPipe => {
                assert!(input.len() > self.most_read)
            }
            result => result.expect("the program reads"),
        }
        drop(stdin);
        let ended = child.wait_with_output().expect("it ends");
        assert!(ended.status.success(), "{self:?}");
        Printed {
            output: ended.stdout,
            errors: ended.stderr,
        }
    }

    /// The same of a program that prints text, and nothing to standard error.
    pub fn text(&self, input: &[u8]) -> String {
        let printed = self.run(input);
        assert_eq!(String::from_utf8_lossy(&printed.errors), "", "{self:?}");
        String::from_utf8(printed.output).expect("text")
    }
}
