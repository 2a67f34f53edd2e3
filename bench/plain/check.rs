//! A judge of a preview's trace as anyone might write it: line by line, over the rows of the open frames.
use crate::camera::{Command, packed};
use crate::picture::{Digests, EXPOSURE, Format, draw, expose};
use std::collections::VecDeque;
use std::str::SplitAsciiWhitespace;

#[derive(Clone, Copy, PartialEq, Eq)]
enum Place {
    Pool,
    Device,
    Client,
}

struct Buffer {
    place: Place,
    fence: Option<u64>,
}

struct Target {
    stream: usize,
    buffer: usize,
    fence: Option<u64>,
    back: bool,
}

struct Frame {
    number: u32,
    targets: Vec<Target>,
    time: Option<u64>,
    parts: u32,
}

pub struct Judge {
    commands: Vec<Command>,
    called: usize,
    begun: bool,
    streams: Vec<(Format, std::ops::Range<usize>)>,
    buffers: Vec<Buffer>,
    repeating: Option<Vec<usize>>,
    requests: u32,
    sent_before: bool,
    since_call: u32,
    done_since_begin: u32,
    next_frame: u32,
    frames: VecDeque<Frame>,
    last_time: Option<u64>,
    unsignalled: VecDeque<u64>,
    fences: u64,
    digests: Digests,
    readout: Vec<u16>,
    picture: Vec<u8>,
    text: Vec<u8>,
}

fn number<T: std::str::FromStr>(words: &mut SplitAsciiWhitespace) -> Option<T> {
    words.next()?.parse().ok()
}

fn fence_of(word: &str) -> Option<Option<u64>> {
    if word == "-" { Some(None) } else { word.strip_prefix('f')?.parse().ok().map(Some) }
}

impl Judge {
    pub fn new(commands: Vec<Command>) -> Judge {
        Judge {
            commands, called: 0, begun: false, streams: Vec::new(), buffers: Vec::new(), repeating: None, requests: 0,
            sent_before: false, since_call: 0, done_since_begin: 0, next_frame: 0, frames: VecDeque::new(),
            last_time: None, unsignalled: VecDeque::new(), fences: 0, digests: Digests::new(),
            readout: vec![0; 160 * 120], picture: vec![0; 160 * 120 * 2], text: Vec::new(),
        }
    }

    /// Judges a trace: how many entries it has, where it is legal and complete; else the place of the first that isn't.
    pub fn judge(&mut self, trace: &str) -> Result<usize, usize> {
        let mut count = 0;
        for line in trace.lines().skip(1) {
            if line == "end" {
                let is_over = self.called == self.commands.len() && self.is_idle() && self.unsignalled.is_empty();
                return if is_over { Ok(count) } else { Err(count) };
            }
            self.entry(line).ok_or(count)?;
            count += 1;
        }
        Err(count)
    }

    fn is_idle(&self) -> bool {
        self.frames.is_empty() && self.buffers.iter().all(|buffer| buffer.place == Place::Pool)
    }

    fn entry(&mut self, line: &str) -> Option<()> {
        let mut words = line.split_ascii_whitespace();
        match words.next()? {
            "send" => self.send(&mut words),
            "shutter" => self.shutter(&mut words),
            "partial" => self.partial(&mut words),
            "buffer" => self.buffer(&mut words),
            "release" => self.release(&mut words),
            "signal" => self.signal(&mut words),
            "begin" => self.begin(&mut words),
            "call" => self.call(&mut words, line),
            _ => None,
        }
    }

    fn send(&mut self, words: &mut SplitAsciiWhitespace) -> Option<()> {
        let wanted = self.repeating.as_ref()?;
        let awaited = match self.commands.get(self.called) {
            Some(Command::Await(count)) if self.begun => *count,
            Some(Command::Configure(_) | Command::Close) if self.begun => return None,
            _ => 0,
        };
        let is_named = number::<u32>(words)? == self.next_frame
            && words.next()?.strip_prefix('r')?.strip_suffix(".0")?.parse::<u32>().ok()? == self.requests - 1
            && (words.next()? == "same") == self.sent_before;
        if !is_named || self.frames.len() >= 6 || self.since_call >= 64 + awaited {
            return None;
        }
        let mut targets = Vec::with_capacity(wanted.len());
        for (&stream, word) in wanted.iter().zip(&mut *words) {
            let mut parts = word.split(':');
            let is_stream = parts.next()?.parse::<usize>().ok()? == stream;
            let buffer = parts.next()?.strip_prefix('b')?.parse::<usize>().ok()?;
            let fence = fence_of(parts.next()?)?;
            let (format, of) = &self.streams[stream];
            let away = self.buffers[of.clone()].iter().filter(|buffer| buffer.place == Place::Device).count() as u32;
            let home = &self.buffers[buffer];
            let is_free = of.contains(&buffer) && home.place == Place::Pool && home.fence == fence;
            if !is_stream || !is_free || away >= format.most_at_device() {
                return None;
            }
            self.buffers[buffer].place = Place::Device;
            targets.push(Target { stream, buffer, fence, back: false });
        }
        if targets.len() != wanted.len() || words.next().is_some() {
            return None;
        }
        self.frames.push_back(Frame { number: self.next_frame, targets, time: None, parts: 0 });
        self.next_frame += 1;
        self.since_call += 1;
        self.sent_before = true;
        Some(())
    }

    fn shutter(&mut self, words: &mut SplitAsciiWhitespace) -> Option<()> {
        let (frame, time) = (number::<u32>(words)?, number::<u64>(words)?);
        let next = self.frames.iter_mut().find(|frame| frame.time.is_none())?;
        let due = self.last_time.map_or(1_000_000_000, |last| last + EXPOSURE.max(33_333_333));
        if next.number != frame || time != due {
            return None;
        }
        next.time = Some(time);
        self.last_time = Some(time);
        Some(())
    }

    fn partial(&mut self, words: &mut SplitAsciiWhitespace) -> Option<()> {
        let (frame, part) = (number::<u32>(words)?, number::<u32>(words)?);
        let at = self.frames.iter().position(|other| other.number == frame)?;
        let ended = self.frames.iter().take(at).all(|other| other.parts == 3);
        let time = self.frames[at].time?;
        if part != self.frames[at].parts + 1 || part > 3 || (part == 3 && !ended) {
            return None;
        }
        self.text.clear();
        packed(part, time, &mut self.text);
        if words.next()?.as_bytes() != self.text {
            return None;
        }
        self.frames[at].parts = part;
        self.retire(at);
        Some(())
    }

    fn buffer(&mut self, words: &mut SplitAsciiWhitespace) -> Option<()> {
        let (frame, stream) = (number::<u32>(words)?, number::<usize>(words)?);
        let buffer = words.next()?.strip_prefix('b')?.parse::<usize>().ok()?;
        if (words.next()?, words.next()?) != ("ok", "-") {
            return None;
        }
        let at = self.frames.iter().position(|other| other.number == frame)?;
        let held = self.frames.iter().take(at).any(|other| other.targets.iter().any(|t| t.stream == stream && !t.back));
        let unsignalled = &self.unsignalled;
        let of = &mut self.frames[at];
        let target = of.targets.iter_mut().find(|target| target.stream == stream)?;
        let waits = target.fence.is_some_and(|fence| unsignalled.contains(&fence));
        if target.back || target.buffer != buffer || of.time.is_none() || held || waits {
            return None;
        }
        target.back = true;
        self.buffers[buffer].place = Place::Client;
        let format = self.streams[stream].0;
        if !self.digests.knows(format, frame) {
            expose(frame, &mut self.readout);
            draw(format, &self.readout, &mut self.picture[..format.bytes()]);
        }
        let digest = self.digests.of(format, frame, &self.picture[..format.bytes()]);
        self.text.clear();
        crate::camera::hex(&mut self.text, &digest);
        if words.next()?.as_bytes() != self.text {
            return None;
        }
        self.retire(at);
        Some(())
    }

    fn retire(&mut self, at: usize) {
        let frame = &self.frames[at];
        if frame.parts == 3 && frame.targets.iter().all(|target| target.back) {
            self.frames.remove(at);
            self.done_since_begin += 1;
        }
    }

    fn release(&mut self, words: &mut SplitAsciiWhitespace) -> Option<()> {
        let buffer = words.next()?.strip_prefix('b')?.parse::<usize>().ok()?;
        let fence = fence_of(words.next()?)??;
        let of = self.buffers.get_mut(buffer)?;
        if of.place != Place::Client || fence != self.fences {
            return None;
        }
        *of = Buffer { place: Place::Pool, fence: Some(fence) };
        self.unsignalled.push_back(fence);
        self.fences += 1;
        Some(())
    }

    fn signal(&mut self, words: &mut SplitAsciiWhitespace) -> Option<()> {
        let fence = fence_of(words.next()?)??;
        let at = self.unsignalled.iter().position(|&other| other == fence)?;
        self.unsignalled.remove(at);
        Some(())
    }

    fn begin(&mut self, words: &mut SplitAsciiWhitespace) -> Option<()> {
        let command = self.commands.get(self.called)?;
        if self.begun || !command.waits() || words.next()? != command.word() {
            return None;
        }
        self.begun = true;
        self.done_since_begin = 0;
        Some(())
    }

    fn call(&mut self, words: &mut SplitAsciiWhitespace, line: &str) -> Option<()> {
        let command = self.commands.get(self.called)?.clone();
        let is_named = number::<usize>(words)? == self.called && words.next()? == command.word();
        let is_over = match &command {
            Command::Repeat(_) | Command::Stop => true,
            Command::Await(count) => self.begun && self.done_since_begin >= *count,
            _ => self.begun && self.is_idle(),
        };
        if !is_named || !is_over {
            return None;
        }
        let mut reply = String::from("ok");
        match command {
            Command::Configure(formats) => {
                for (place, format) in formats.into_iter().enumerate() {
                    let (first, count) = (self.buffers.len(), format.most_at_device() as usize + 2);
                    reply += &format!(" {place}:b{first}+{count}");
                    self.buffers.extend((0..count).map(|_| Buffer { place: Place::Pool, fence: None }));
                    self.streams.push((format, first..first + count));
                }
                self.repeating = None;
                self.sent_before = false;
            }
            Command::Repeat(targets) => {
                reply += &format!(" r{}", self.requests);
                self.repeating = Some(targets);
                self.requests += 1;
            }
            Command::Stop | Command::Close => self.repeating = None,
            Command::Await(_) | Command::Wait => {}
        }
        self.called += 1;
        self.begun = false;
        self.since_call = 0;
        (line.split_once(" = ")?.1 == reply).then_some(())
    }
}
