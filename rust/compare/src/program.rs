//! The proved programs, run on an input.

use std::io::Write;
use std::path::PathBuf;
use std::process::{Command, Stdio};
use std::{env, thread};

use crate::repository;

pub struct Program {
    name: &'static str,
    /// The variable of the environment that names another file.
    variable: &'static str,
}

pub const MATRIX: Program = Program {
    name: "matrix",
    variable: "GYODAEBEUN_MATRIX",
};

pub const SCENARIO: Program = Program {
    name: "scenario",
    variable: "GYODAEBEUN_SCENARIO",
};

impl Program {
    /// What the program prints of an input, which is handed over in pieces of this size.
    pub fn printed(&self, input: &[u8], piece: usize) -> Vec<u8> {
        let mut child = self
            .command()
            .stdin(Stdio::piped())
            .stdout(Stdio::piped())
            .spawn()
            .expect("the program runs");
        let mut pipe = child.stdin.take().expect("it reads");
        let input = input.to_vec();
        let feeding = thread::spawn(move || {
            for part in input.chunks(piece) {
                // Where the program has read all that it looks at, the rest finds nobody.
                if pipe.write_all(part).is_err() {
                    return;
                }
            }
        });
        let output = child.wait_with_output().expect("it ends");
        feeding.join().expect("all is written");
        output.stdout
    }

    /// Runs the program, by an emulator where the environment names one.
    fn command(&self) -> Command {
        let Some(emulator) = env::var_os("GYODAEBEUN_EMULATOR") else {
            return Command::new(self.file());
        };
        let mut command = Command::new(emulator);
        command.arg(self.file());
        command
    }

    /// Where the gate leaves the program, or the file that the environment names.
    fn file(&self) -> PathBuf {
        env::var_os(self.variable).map_or_else(|| self.built_here(), PathBuf::from)
    }

    fn built_here(&self) -> PathBuf {
        let folder = repository().join("crates").join(self.name);
        let program = folder.join("out").join(self.name);
        let folder = folder.display();
        assert!(program.is_file(), "build it with `rt run` in {folder}");
        program
    }
}
