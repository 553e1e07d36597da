//! redplay-player [--late FILE] [--lenient] FOLDER SCRIPT [START]: plays a script on the service of a folder, and prints what
//! `redplay play` prints of it; with --check in the place of a script what `redplay check` prints. The exit status is theirs.
//! The commands: run, step N, show, key NAME, tick N, stream N, engine N, file NAME HEX, scene NAME, scene NAME HEX.

use redplay::{Cell, Engine, Input, Refused, Rest, Service, COLUMNS};
use std::error::Error;
use std::fs;
use std::path::Path;
use std::process::ExitCode;

const USAGE: &str = "usage: redplay-player [--late FILE] [--lenient] FOLDER SCRIPT [START], or FOLDER --check [START]";

/// The most steps that `run` makes: those of `redplay`.
const RUN_LIMIT: u32 = 1_000_000;

type Owned = (Vec<u8>, Vec<u8>);

/// Adds the files of a folder and of those in it, each under its path from the root.
fn gather(root: &Path, below: &str, files: &mut Vec<Owned>) -> std::io::Result<()> {
    for entry in fs::read_dir(root.join(below))? {
        let entry = entry?;
        let name = format!("{below}{}", entry.file_name().to_string_lossy());
        if entry.path().is_dir() {
            gather(root, &format!("{name}/"), files)?;
        } else {
            files.push((name.into_bytes(), fs::read(entry.path())?));
        }
    }
    Ok(())
}

/// Cells of one pair of colours, which lie side by side. Black spaces on black are not printed, nor spaces at the end.
fn run_text(first: usize, cells: &[Cell]) -> String {
    let character = |cell: &Cell| char::from_u32(cell.scalar).unwrap_or('\u{FFFD}');
    let text: String = cells.iter().map(character).collect();
    let text = text
        .trim_end_matches(' ')
        .replace('\\', "\\\\")
        .replace('"', "\\\"");
    let (fore, back) = (cells[0].fore, cells[0].back);
    if text.is_empty() && fore == 0 && back == 0 {
        return String::new();
    }
    format!(
        " {first}-{} {fore:06x}/{back:06x} \"{text}\"",
        first + cells.len() - 1
    )
}

fn show(engine: &mut Engine, frame: usize) -> Result<(), Refused> {
    println!("frame {frame}");
    for row in engine.changed_rows() {
        let cells = engine.row(row)?;
        let same = |a: &Cell, b: &Cell| a.fore == b.fore && a.back == b.back;
        let mut first = 0;
        let mut line = format!("row {row:02}:");
        for run in cells.chunk_by(same) {
            line += &run_text(first, run);
            first += run.len();
        }
        assert_eq!(first, COLUMNS);
        println!("{line}");
    }
    Ok(())
}

fn key_named(name: &str) -> Option<u32> {
    let names = [
        "up", "down", "left", "right", "0", "1", "2", "3", "4", "5", "6", "7", "8", "9", "select",
        "cancel",
    ];
    let colours = ["red", "green", "yellow", "blue", "text"];
    let at = |list: &[&str], first: u32| {
        list.iter()
            .position(|n| *n == name)
            .map(|n| n as u32 + first)
    };
    at(&names, 1).or(at(&colours, 100))
}

fn advance(engine: &mut Engine, most: u32) -> Result<(), Refused> {
    let before = engine.totals();
    engine.advance(most)?;
    let after = engine.totals();
    for at in before.faults..after.faults {
        print!("{}", String::from_utf8_lossy(&engine.fault(at as usize)?));
    }
    let left = match engine.rest() {
        Rest::More => "more",
        Rest::Idle => "idle",
        Rest::Ended => "ended",
    };
    println!("did {} {left}", after.taken - before.taken);
    Ok(())
}

/// The bytes that pairs of hexadecimal digits write.
fn unhexed(digits: &str) -> Result<Vec<u8>, Box<dyn Error>> {
    let pairs = digits.as_bytes().chunks(2);
    pairs
        .map(|pair| Ok(u8::from_str_radix(std::str::from_utf8(pair)?, 16)?))
        .collect()
}

/// A name and the bytes behind it; without any those of the file in the folder that has this name.
fn brought<'a>(owned: &'a [Owned], words: &'a str) -> Result<Owned, Box<dyn Error>> {
    match words.split_once(' ') {
        Some((name, digits)) => Ok((name.into(), unhexed(digits)?)),
        None => {
            let found = owned.iter().find(|file| file.0 == words.as_bytes());
            found.cloned().ok_or_else(|| "no file has the name".into())
        }
    }
}

/// Does a command that posts something.
fn post(
    engine: &mut Engine,
    owned: &[Owned],
    word: &str,
    rest: &str,
) -> Result<(), Box<dyn Error>> {
    let bytes;
    let input = match word {
        "key" => Input::Key(key_named(rest).ok_or("no such key")?),
        "tick" => Input::Tick(rest.parse()?),
        "stream" => Input::Stream(rest.parse()?),
        "engine" => Input::Event(rest.parse()?),
        "file" | "scene" => {
            bytes = brought(owned, rest)?;
            let file = (bytes.0.as_slice(), bytes.1.as_slice());
            if word == "file" {
                Input::File(file)
            } else {
                Input::Scene(file)
            }
        }
        _ => return Err(format!("no such command: {word}").into()),
    };
    match engine.post(input) {
        Err(Refused::NO_MEMORY) => Err(Refused::NO_MEMORY.into()),
        Err(refused) => Ok(println!("refused {}", refused.0)),
        Ok(()) => Ok(()),
    }
}

fn obey(
    engine: &mut Engine,
    owned: &[Owned],
    line: &str,
    frames: &mut usize,
) -> Result<(), Box<dyn Error>> {
    let (word, rest) = line.split_once(' ').unwrap_or((line, ""));
    match word {
        "run" => Ok(advance(engine, RUN_LIMIT)?),
        "step" => Ok(advance(engine, rest.parse()?)?),
        "show" => {
            *frames += 1;
            Ok(show(engine, *frames)?)
        }
        _ => post(engine, owned, word, rest),
    }
}

/// Prints the verdict, and answers the exit status.
fn judge(service: Service<'_>) -> Result<u8, Refused> {
    let verdict = redplay::check(service)?;
    print!("{}", String::from_utf8_lossy(&verdict.text));
    Ok(match verdict.why {
        Ok(()) => 0,
        Err(Refused::UNACCEPTED) => 1,
        Err(_) => 2,
    })
}

/// Plays a script, and answers the exit status.
fn play(mut engine: Engine, owned: &[Owned], script: &str) -> Result<u8, Box<dyn Error>> {
    let mut frames = 0;
    for line in script.lines() {
        if !line.is_empty() && !line.starts_with('#') {
            obey(&mut engine, owned, line, &mut frames)?;
        }
    }
    let totals = engine.totals();
    println!("total {}", totals.taken);
    Ok(if totals.faults > 0 { 3 } else { 0 })
}

fn main() -> Result<ExitCode, Box<dyn Error>> {
    let (mut late, mut lenient, mut words) = (Vec::new(), false, Vec::new());
    let mut given = std::env::args().skip(1);
    while let Some(word) = given.next() {
        match word.as_str() {
            "--lenient" => lenient = true,
            "--late" => late = fs::read(given.next().ok_or("no file behind --late")?)?,
            _ => words.push(word),
        }
    }
    let [folder, script, more @ ..] = words.as_slice() else {
        return Err(USAGE.into());
    };
    let start = more.first().map_or("a", String::as_str).as_bytes();
    let mut owned = Vec::new();
    gather(Path::new(folder), "", &mut owned)?;
    let files: Vec<_> = owned
        .iter()
        .map(|file| (file.0.as_slice(), file.1.as_slice()))
        .collect();
    let service = Service {
        files: &files,
        start,
        late: &late,
    };
    if script == "--check" {
        return Ok(judge(service)?.into());
    }
    match Engine::start(service, 60_000, lenient) {
        Ok(engine) => Ok(play(engine, &owned, &fs::read_to_string(script)?)?.into()),
        Err(Refused::NO_MEMORY) => Err(Refused::NO_MEMORY.into()),
        Err(_) => Ok(if judge(service)? == 1 { 1 } else { 2 }.into()),
    }
}
