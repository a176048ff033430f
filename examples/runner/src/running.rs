//! Tests run side by side, each in a process of its own.

use crate::cargo::Programs;
use std::process::{Command, Stdio};
use std::sync::Mutex;
use std::time::Instant;
use test_select::{BinaryId, TestName};

/// A test that was run.
pub struct Ran {
    pub binary: BinaryId,
    pub test: TestName,
    pub passed: bool,
    pub seconds: f64,
    pub output: String,
}

/// Runs just these tests, and answers them in their order.
pub fn run_all(programs: &Programs, tests: &[(BinaryId, TestName)], jobs: usize) -> Vec<Ran> {
    let left = Mutex::new(tests.iter().enumerate());
    let done = Mutex::new(Vec::new());
    std::thread::scope(|scope| {
        for _ in 0..jobs.max(1) {
            scope.spawn(|| loop {
                let next = left.lock().expect("no thread panics").next();
                let Some((place, (binary, test))) = next else { break };
                let ran = run_one(programs, binary, test);
                done.lock().expect("no thread panics").push((place, ran));
            });
        }
    });
    let mut done = done.into_inner().expect("no thread panics");
    done.sort_by_key(|(place, _)| *place);
    done.into_iter().map(|(_, ran)| ran).collect()
}

fn run_one(programs: &Programs, binary: &BinaryId, test: &TestName) -> Ran {
    let started = Instant::now();
    let program = &programs[binary];
    let ended = Command::new(&program.path)
        .args(["--exact", &test.0])
        .current_dir(&program.folder)
        .envs(program.environment.iter().cloned())
        .stdin(Stdio::null())
        .output();
    let (passed, output) = match ended {
        Ok(ended) => (ended.status.success(), String::from_utf8_lossy(&ended.stdout).into_owned()),
        Err(error) => (false, error.to_string()),
    };
    let seconds = started.elapsed().as_secs_f64();
    Ran { binary: binary.clone(), test: test.clone(), passed, seconds, output }
}
