//! How long queries take, and how much memory a kept span: `queries PROGRAM KIND IMAGE STEPS`.
use std::env;
use std::fs;
use std::io::{BufRead, BufReader, Write};
use std::process::{Child, ChildStdin, ChildStdout, Command, Stdio};
use std::time::Instant;

// The steps of a span in the program.
const SPAN: u64 = 65_536;

// How many steps `visit` looks at, at most. Those that it runs are not kept.
const VISIT: u64 = 1_048_576;

// The program, with commands going in and replies coming out.
struct Asked {
    child: Child,
    commands: ChildStdin,
    replies: BufReader<ChildStdout>,
}

impl Asked {
    fn start(program: &str, kind: &str, image: &[u8]) -> Asked {
        let mut child = Command::new(program)
            .args(["--kind", kind, "--size", &image.len().to_string()])
            .stdin(Stdio::piped())
            .stdout(Stdio::piped())
            .spawn()
            .expect("the program starts");
        let mut commands = child.stdin.take().expect("a pipe");
        commands.write_all(image).expect("it reads the image");
        let replies = BufReader::new(child.stdout.take().expect("a pipe"));
        let mut asked = Asked { child, commands, replies };
        asked.ask("pos");
        asked
    }

    // The first line of the reply to a command, and the seconds that it took.
    fn ask(&mut self, command: &str) -> (String, f64) {
        let start = Instant::now();
        writeln!(self.commands, "{command}").expect("it reads commands");
        let mut line = String::new();
        self.replies.read_line(&mut line).expect("it replies");
        (line.trim_end().to_string(), start.elapsed().as_secs_f64())
    }

    // The seconds that one register takes at a position.
    fn at(&mut self, position: u64) -> f64 {
        self.ask(&format!("goto {position}"));
        self.ask("reg 2").1
    }

    // The kilobytes that it holds.
    fn memory(&self) -> u64 {
        let status = fs::read_to_string(format!("/proc/{}/status", self.child.id())).expect("it runs");
        let line = status.lines().find(|line| line.starts_with("VmRSS:")).expect("its memory");
        line.split_whitespace().nth(1).and_then(|n| n.parse().ok()).expect("a number")
    }

    // The last word of the page in which the PC stands at a position. Few steps come to it.
    fn end_of_page(&mut self, position: u64) -> u32 {
        self.ask(&format!("goto {position}"));
        let (reply, _) = self.ask("regs");
        // The registers follow, four a line.
        for _ in 0..8 {
            self.replies.read_line(&mut String::new()).expect("it replies");
        }
        let pc = reply.strip_prefix("pc 0x").and_then(|rest| u32::from_str_radix(&rest[..8], 16).ok()).expect("a PC");
        pc | 0xffc
    }

    // The seconds of a visit from a position, if no step comes to the address.
    fn visit(&mut self, position: u64, address: u32, steps: u64) -> Option<f64> {
        // The machine stands there, so that no start is laid out while it is timed.
        self.at(position);
        let (reply, time) = self.ask(&format!("visit {address} {steps}"));
        (reply == "error 8 NotFound").then_some(time)
    }

    // The seconds that the steps of a visit take from a position on, when they keep nothing: a search for the end of a page in which the PC
    // stands, and to which no step comes. It leaves out spans in which the PC is never in the page, so of eight pages that one is taken
    // whose search is longest, and searched for once more.
    fn plain(&mut self, position: u64) -> f64 {
        let mut ends: Vec<u32> = (0..8).map(|part| self.end_of_page(position + VISIT / 8 * part)).collect();
        ends.sort_unstable();
        ends.dedup();
        let (_, end) = ends
            .into_iter()
            .filter_map(|end| self.visit(position, end, VISIT).map(|time| (time, end)))
            .max_by(|a, b| a.0.total_cmp(&b.0))
            .expect("a page to whose end no step comes");
        self.visit(position, end, VISIT).expect("the same search")
    }

    // The seconds of a search from reset, over this many steps, for an address in a page where the PC never stands.
    fn search(&mut self, steps: u64) -> f64 {
        let mut seconds = 0.0;
        for piece in 0..steps / VISIT {
            self.ask(&format!("goto {}", piece * VISIT));
            let (reply, time) = self.ask(&format!("visit 0 {VISIT}"));
            assert_eq!(reply, "error 8 NotFound");
            seconds += time;
        }
        seconds
    }

    // The seconds of the first query at a position, made in pieces, and those of the same steps when they keep nothing, measured between
    // them: the machine's own speed may move.
    fn first(&mut self, steps: u64) -> (f64, f64) {
        let (mut kept, mut plain) = (0.0, 0.0);
        for piece in 0..steps / VISIT {
            kept += self.at((piece + 1) * VISIT);
            plain += self.plain(piece * VISIT);
        }
        (kept, plain)
    }

    fn end(mut self) {
        self.ask("pos");
        drop(self.commands);
        self.child.wait().expect("it ends");
    }
}

// A line of the table: what was measured, and what was wanted.
fn line(what: &str, value: f64, unit: &str, wanted: &str) {
    println!("  {what:<58} {value:>9.2} {unit:<4} {wanted}");
}

fn main() {
    let words: Vec<String> = env::args().collect();
    let [_, program, kind, path, steps] = words.as_slice() else {
        panic!("queries PROGRAM KIND IMAGE STEPS");
    };
    let image = fs::read(path).expect("the image");
    let steps: u64 = steps.parse().expect("a number of steps");
    // Whole visits, so that each figure is of the same steps.
    let steps = steps.div_ceil(VISIT).max(1) * VISIT;
    println!("{path}, {} million steps", steps / 1_000_000);
    let mut asked = Asked::start(program, kind, &image);
    asked.at(0);
    let before = asked.memory();
    let (first, plain) = asked.first(steps);
    line("first query, by the same steps that keep nothing", plain / first, "", "0.9");
    line("first query, steps a second", steps as f64 / first / 1e6, "mio", "");
    let spans = steps / SPAN;
    line("memory a kept span", asked.memory().saturating_sub(before) as f64 / spans as f64, "KB", "16");
    let inside = steps / SPAN * SPAN + SPAN / 2;
    asked.at(inside);
    line("again", asked.at(inside) * 1e3, "ms", "5");
    line("at an earlier position in the span", asked.at(inside - 20_000) * 1e3, "ms", "5");
    line("at a later one", asked.at(inside + 10_000) * 1e3, "ms", "5");
    line("search for an address that is never reached", asked.search(steps) * 1e3, "ms", "");
    asked.at(steps);
    asked.ask("add 1000 0 0x41");
    line("after a byte was added at step 1000", asked.at(steps) * 1e3, "ms", "50");
    for (what, command) in [
        ("what happened before, asked first: console", "console 0 0 16"),
        ("console in the middle of what was sent", "console 0 50000 16"),
        ("find of the last byte of many", "find 0 99999"),
        ("writer of a word that is stored often", "writer 0x1000"),
        ("writer of one that is stored once, at the start", "writer 0x2000"),
        ("writer of one that is not stored", "writer 0x8000"),
    ] {
        line(what, asked.ask(command).1 * 1e3, "ms", if command == "writer 0x2000" { "1" } else { "" });
    }
    asked.ask("patch 0x1fc3f000 1");
    line("after a patch of a page that is not touched", asked.at(steps) * 1e3, "ms", "50");
    asked.end();
}
