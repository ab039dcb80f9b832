//! A plain workbench in ordinary Rust, apart from the definitions in `crates/*/specs`, to compare the proved program with.
//!
//! `plain [--kind rom|image|source] [--size N] [--log N] [--pages N] [--without PART,..]` reads what the proved program reads,
//! and writes what it writes. The parts are `translation`, `caches`, `devices` and `kinds`, of which the last are the events
//! other than sound bytes. Each query runs from reset, by the simplest means.
//! `plain --random image|reader|rewriter|caller|log|script --seed N [--without PART,..] [--asks COMMAND,..]` writes a random one instead:
//! an image of many instructions, one that reads what arrives, a log, or a script of these commands. `plain --random edits
//! --seed N`, with the words and the input of a run, writes a script of edits for it.

mod bus;
mod caches;
mod calls;
mod clock;
mod control;
mod edits;
mod image;
mod instruct;
mod log;
mod machine;
mod random;
mod script;
mod serial;
mod session;
mod source;
mod table;
#[cfg(test)]
mod tests;
mod trace;
mod translation;

use std::io::{Read, Write};
use std::process::ExitCode;
use std::{env, io};

use image::{Image, ImageFault};
use log::Log;
use machine::Parts;
use script::Command;
use session::Session;

#[derive(Clone, Copy)]
enum Kind {
    Rom,
    Image,
    Source,
}

struct Options {
    kind: Kind,
    size: usize,
    log_size: usize,
    parts: Parts,
    random: Option<String>,
    seed: u64,
    asks: String,
}

/// The program's line, or what is wrong with it.
fn options(mut words: impl Iterator<Item = String>) -> Result<Options, String> {
    let mut options = Options {
        kind: Kind::Rom,
        size: 0,
        log_size: 0,
        parts: Parts::ALL,
        random: None,
        seed: 0,
        asks: String::new(),
    };
    while let Some(word) = words.next() {
        let value = words.next().ok_or(format!("{word} wants a value"))?;
        let number = || value.parse::<usize>().map_err(|_| format!("{value} is no number"));
        match word.as_str() {
            "--kind" if value == "rom" => options.kind = Kind::Rom,
            "--kind" if value == "image" => options.kind = Kind::Image,
            "--kind" if value == "source" => options.kind = Kind::Source,
            "--size" => options.size = number()?,
            "--log" => options.log_size = number()?,
            "--pages" => options.parts.pages = number()? as u32,
            "--without" => without(&mut options.parts, &value)?,
            "--random" => options.random = Some(value),
            "--seed" => options.seed = number()? as u64,
            "--asks" => options.asks = value,
            _ => return Err(format!("{word} {value} is not known")),
        }
    }
    Ok(options)
}

fn without(parts: &mut Parts, names: &str) -> Result<(), String> {
    for name in names.split(',').filter(|name| !name.is_empty()) {
        match name {
            "translation" => parts.translation = false,
            "caches" => parts.caches = false,
            "devices" => parts.devices = false,
            "kinds" => parts.kinds = false,
            _ => return Err(format!("{name} is no part")),
        }
    }
    Ok(())
}

/// Why a run ends: the number of the fault, with its name and kind.
struct Fault(u32, String);

/// The session that the beginning of the input makes, and the script after it.
fn begin<'a>(options: &Options, input: &'a [u8]) -> Result<(Session, &'a [u8]), Fault> {
    let bad_image = |kind: ImageFault| Fault(9, format!("BadImage {kind:?}"));
    let bad_log = |kind: log::LogFault| Fault(10, format!("BadLog {kind:?}"));
    let short = || Fault(11, "ReadFault".into());
    let (image, input) = input.split_at_checked(options.size).ok_or_else(short)?;
    let (log, script) = input.split_at_checked(options.log_size).ok_or_else(short)?;
    let image = match options.kind {
        Kind::Rom => Image::raw_rom(image).map_err(bad_image)?,
        Kind::Image => Image::read(image).map_err(bad_image)?,
        Kind::Source => source::assemble(image).map_err(|it| Fault(13, format!("BadSource {} {:?}", it.0, it.1)))?,
    };
    let log = if log.is_empty() { Ok(Log::default()) } else { Log::read(log) }.map_err(bad_log)?;
    if !image.fits(options.parts.pages) {
        return Err(bad_image(ImageFault::Pages));
    }
    Ok((Session::new(image, log, options.parts), script))
}

/// The replies to a script.
fn replies(session: &mut Session, script: &[u8]) -> String {
    let mut text = String::new();
    for line in script.split(|&byte| byte == b'\n') {
        let reply = match script::parse(line) {
            Ok(None) => continue,
            Ok(Some(Command::Quit)) => break,
            Ok(Some(command)) => session.answer(command),
            Err(refusal) => Err(refusal),
        };
        text += &reply.unwrap_or_else(|refusal| format!("error {} {refusal:?}\n", refusal.number()));
    }
    text
}

fn main() -> io::Result<ExitCode> {
    let options = match options(env::args().skip(1)) {
        Ok(options) => options,
        Err(wrong) => {
            eprintln!("plain: {wrong}");
            return Ok(ExitCode::from(2));
        }
    };
    if let Some(kind) = options.random.as_deref().filter(|&kind| kind != "edits") {
        let commands: Vec<&str> = options.asks.split(',').collect();
        let made = match kind {
            "image" => random::image(options.seed, options.parts).write(),
            "reader" => edits::reader(options.seed).write(),
            "rewriter" => edits::rewriter(options.seed).write(),
            "caller" => calls::caller(options.seed).write(),
            "log" => random::log(options.seed, options.parts).write(),
            _ => random::script(options.seed, &commands).into_bytes(),
        };
        io::stdout().write_all(&made)?;
        return Ok(ExitCode::SUCCESS);
    }
    let mut input = Vec::new();
    io::stdin().read_to_end(&mut input)?;
    match begin(&options, &input) {
        Ok((mut session, script)) => {
            let made = match options.random {
                Some(_) => edits::script(options.seed, session),
                None => replies(&mut session, script),
            };
            io::stdout().write_all(made.as_bytes())?;
            Ok(ExitCode::SUCCESS)
        }
        Err(Fault(number, name)) => {
            eprintln!("plain: error {number} {name}");
            Ok(ExitCode::from(if number == 11 { 3 } else { 1 }))
        }
    }
}
