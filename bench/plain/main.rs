//! Plain Rust to measure the camera against: it plays previews and writes the trace that `camera play` writes, byte for
//! byte, with a memory of digests; or runs them on threads. It has neither proofs nor what previews don't need.
//!
//!     plain play < SCRIPT                   one thread
//!     plain run WORKERS < SCRIPT            a thread for the client, the requests, the sensor, the callbacks and the
//!                                           consumer each, and so many that draw
//!     plain check < SCRIPT-AND-TRACE        judges a trace; both of a preview
mod camera;
mod check;
mod picture;
mod sha256;
mod threads;

use camera::{Camera, Command, Job};
use picture::{Digests, Format};
use std::io::{self, Read, Write};

fn format_of(word: &str) -> Format {
    match word.split_once(':') {
        Some(("yuv", size)) => {
            let (width, height) = size.split_once('x').expect("a size");
            Format::Yuv { width: width.parse().expect("a width"), height: height.parse().expect("a height") }
        }
        _ => Format::Raw16,
    }
}

fn commands_of(text: &str) -> Vec<Command> {
    let mut commands: Vec<Command> = text
        .lines()
        .skip(1)
        .filter(|line| !line.is_empty())
        .map(|line| {
            let words: Vec<&str> = line.split_whitespace().collect();
            match words[0] {
                "configure" => Command::Configure(words[1..].iter().map(|word| format_of(word)).collect()),
                "repeat" => {
                    let (_, targets) = words[1].split_once('@').expect("an item");
                    Command::Repeat(targets.split('+').map(|target| target.parse().expect("a stream")).collect())
                }
                "await" => Command::Await(words[1].parse().expect("a count")),
                "stop" => Command::Stop,
                "wait" => Command::Wait,
                "close" => Command::Close,
                other => panic!("no preview has {other}"),
            }
        })
        .collect();
    if !matches!(commands.last(), Some(Command::Close)) {
        commands.push(Command::Close);
    }
    commands
}

/// Plays on one thread: the first step that is ready, again and again.
fn play(camera: &mut Camera, digests: &mut Digests, sink: &mut impl Write) -> io::Result<()> {
    let (mut exposing, mut drawing): (Vec<Job>, Vec<Job>) = (Vec::new(), Vec::new());
    while !camera.is_complete() {
        if camera.out.len() >= 4096 {
            sink.write_all(&camera.out)?;
            camera.out.clear();
        }
        if camera.send() || camera.release() || camera.signal() || camera.client() {
            continue;
        }
        if let Some(job) = camera.shutter() {
            exposing.push(job);
        } else if let Some(mut job) = exposing.pop() {
            job.work(digests);
            camera.end(job);
        } else if camera.partial() {
        } else if let Some(job) = camera.take_fill() {
            drawing.push(job);
        } else if !drawing.is_empty() {
            let mut job = drawing.remove(0);
            job.work(digests);
            camera.end(job);
        } else {
            assert!(camera.deliver(), "nothing is ready");
        }
    }
    camera.out.extend_from_slice(b"end\n");
    sink.write_all(&camera.out)
}

/// Judges a script and a trace.
fn check(text: &str) -> String {
    let at = text.find("\ntrace ").map_or(text.len(), |at| at + 1);
    let (script, trace) = text.split_at(at);
    match check::Judge::new(commands_of(script)).judge(trace) {
        Ok(_) => "legal\n".to_string(),
        Err(at) => format!("illegal {at}\n"),
    }
}

fn main() -> io::Result<()> {
    let words: Vec<String> = std::env::args().skip(1).collect();
    let mut text = String::new();
    io::stdin().read_to_string(&mut text)?;
    let mut sink = io::stdout().lock();
    match words[0].as_str() {
        "check" => sink.write_all(check(&text).as_bytes()),
        "play" => play(&mut Camera::new(commands_of(&text)), &mut Digests::new(), &mut sink),
        _ => {
            let workers = words[1].parse().expect("a number of workers");
            sink.write_all(&threads::run(Camera::new(commands_of(&text)), workers))
        }
    }
}
