//! 200,000 blocks: split over several runs, numbered through, the same for any number of jobs, in
//! memory that does not grow with them.

use crate::common::{program, Folder, TOOL};
use std::fmt::Write;
use std::fs;
use std::process::{Command, Stdio};
use std::time::Duration;

/// The most memory a process has had so far, in kB.
fn peak(process: &str) -> Option<u64> {
    let status = fs::read_to_string(format!("/proc/{process}/status")).ok()?;
    let line = status.lines().find(|line| line.starts_with("VmHWM:"))?;
    line.split_whitespace().nth(1)?.parse().ok()
}

/// Whether a process runs this program already, and is no longer the tool that starts it.
fn runs(process: &str, program: &str) -> bool {
    let running = fs::read_link(format!("/proc/{process}/exe"));
    running.is_ok_and(|path| fs::canonicalize(program).is_ok_and(|program| program == path))
}

/// The children of a process and of its threads.
fn children(process: u32) -> Vec<String> {
    let tasks = fs::read_dir(format!("/proc/{process}/task"))
        .into_iter()
        .flatten();
    let children = tasks
        .flatten()
        .map(|task| fs::read_to_string(task.path().join("children")));
    let ids = |ids: String| ids.split_whitespace().map(String::from).collect::<Vec<_>>();
    children.flatten().flat_map(ids).collect()
}

/// Runs the tool; the most memory that it and a program of its own have had, in kB.
fn measured(folder: &Folder, program: &str, samples: &str, out: &str, jobs: &str) -> (u64, u64) {
    let mut child = Command::new(TOOL)
        .args([
            "decode",
            "--matrix",
            "h",
            "--setting",
            crate::common::SETTING,
        ])
        .args([
            "--samples",
            samples,
            "--out",
            out,
            "--program",
            program,
            "--jobs",
            jobs,
        ])
        .current_dir(&folder.0)
        .stderr(Stdio::null())
        .spawn()
        .unwrap();
    let (mut tool, mut programs) = (0, 0);
    while child.try_wait().unwrap().is_none() {
        tool = tool.max(peak(&child.id().to_string()).unwrap_or(0));
        for id in children(child.id()).iter().filter(|id| runs(id, program)) {
            programs = programs.max(peak(id).unwrap_or(0));
        }
        std::thread::sleep(Duration::from_millis(2));
    }
    assert_eq!(child.wait().unwrap().code(), Some(1));
    (tool, programs)
}

/// Samples of the code of one check over two bits: some blocks are wrong, some refused.
fn samples(count: usize) -> String {
    let mut text = String::new();
    for at in 0..count {
        let second = match at % 1000 {
            999 => "nan",
            k if k % 3 == 0 => "0.5",
            _ => "-1.0",
        };
        writeln!(text, "-1.{:03};{second}", at % 1000).unwrap();
    }
    text
}

#[test]
fn two_hundred_thousand_blocks() {
    let Some(program) = program() else { return };
    let folder = Folder::new("memory");
    folder.write("h", "2 1 2 1\n0 1\n");
    folder.write("y", samples(200_000));
    folder.write("few", samples(70_000));
    let few = measured(&folder, &program, "few", "r-few", "1");
    let one = measured(&folder, &program, "y", "r-one", "1");
    let three = measured(&folder, &program, "y", "r-three", "3");
    let (one_table, three_table) = (folder.read("r-one"), folder.read("r-three"));
    assert!(one_table == three_table, "--jobs 3 gives the same table");
    let lines: Vec<&str> = one_table.lines().collect();
    assert_eq!(lines.len(), 200_001);
    for block in [0, 65_534, 65_535, 131_071, 199_998] {
        let begins = format!("{},{block},decoded,", block + 1);
        assert!(
            lines[block + 1].starts_with(&begins),
            "{}",
            lines[block + 1]
        );
    }
    assert!(lines[200_000].starts_with("200000,199999,refused,,,,,no,sample 2 (column B)"));
    assert!(folder
        .read("r-few")
        .lines()
        .eq(lines[..70_001].iter().copied()));
    println!("few {few:?}, one {one:?}, three {three:?} kB");
    for (tool, program) in [few, one, three] {
        assert!(tool < 100_000, "the tool took {tool} kB");
        assert!(program < 20_000, "the program took {program} kB");
    }
    assert!(
        one.0 < few.0 + 20_000,
        "{few:?} for 70,000 blocks, {one:?} for 200,000"
    );
}
