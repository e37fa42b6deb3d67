//! What a run counts and how it ends.

use std::env;
use std::process::{exit, ExitCode};

const FAILURES_SHOWN: u64 = 10;

pub struct Report {
    pub calls: u64,
    pub failures: u64,
    /// The port is broken on purpose: it is noticed once.
    is_broken: bool,
}

impl Report {
    pub fn new() -> Report {
        Report { calls: 0, failures: 0, is_broken: env::var_os("C_CALLS_BREAKAGE").is_some() }
    }

    pub fn fail(&mut self, what: &str) {
        self.failures += 1;
        if self.failures <= FAILURES_SHOWN {
            println!("FAILED: {what}");
        }
        if self.is_broken {
            exit(1);
        }
    }

    /// So much has failed that going on shows nothing more.
    pub fn is_enough(&self) -> bool {
        self.failures >= FAILURES_SHOWN
    }

    pub fn finish(&self, ran: Result<(), String>) -> ExitCode {
        if let Err(problem) = ran {
            println!("could not be tried: {problem}");
            return ExitCode::from(if self.failures > 0 { 1 } else { 2 });
        }
        println!("{} calls, {} failures", self.calls, self.failures);
        ExitCode::from(if self.failures > 0 { 1 } else { 0 })
    }
}
