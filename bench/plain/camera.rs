//! A camera that plays previews as anyone might write it: no proof, no fault, no flush; the rules that a preview needs.
use crate::picture::{Digests, EXPOSURE, Format, ISO, LEVEL};
use std::collections::VecDeque;

/// What a script asks for.
#[derive(Clone)]
pub enum Command {
    Configure(Vec<Format>),
    Repeat(Vec<usize>),
    Await(u32),
    Stop,
    Wait,
    Close,
}

impl Command {
    pub fn word(&self) -> &'static str {
        match self {
            Command::Configure(_) => "configure",
            Command::Repeat(_) => "repeat",
            Command::Await(_) => "await",
            Command::Stop => "stop",
            Command::Wait => "wait",
            Command::Close => "close",
        }
    }

    pub fn waits(&self) -> bool {
        !matches!(self, Command::Repeat(_) | Command::Stop)
    }
}

#[derive(Clone, Copy, PartialEq, Eq)]
enum Work {
    Waiting,
    Out,
    Filled,
    Back,
}

#[derive(Clone, Copy)]
struct Target {
    stream: usize,
    buffer: usize,
    fence: Option<u64>,
    work: Work,
    digest: [u8; 32],
}

struct Frame {
    number: u32,
    targets: Vec<Target>,
    time: Option<u64>,
    exposed: bool,
    parts: u32,
    readout: Option<Box<[u16]>>,
}

impl Frame {
    fn is_done(&self) -> bool {
        self.parts == 3 && self.targets.iter().all(|target| target.work == Work::Back)
    }
}

#[derive(Clone, Copy, PartialEq, Eq)]
enum Place {
    Pool,
    Device,
    Client,
}

struct Buffer {
    place: Place,
    fence: Option<u64>,
    bytes: Option<Box<[u8]>>,
}

struct Stream {
    format: Format,
    buffers: std::ops::Range<usize>,
}

/// A frame to expose, or a picture to draw.
pub enum Job {
    Expose { frame: u32, readout: Box<[u16]> },
    Draw { frame: u32, target: usize, format: Format, readout: Box<[u16]>, bytes: Box<[u8]>, digest: [u8; 32] },
}

impl Job {
    pub fn work(&mut self, digests: &mut Digests) {
        match self {
            Job::Expose { frame, readout } => crate::picture::expose(*frame, readout),
            Job::Draw { frame, format, readout, bytes, digest, .. } => {
                crate::picture::draw(*format, readout, bytes);
                *digest = digests.of(*format, *frame, bytes);
            }
        }
    }
}

pub struct Camera {
    commands: Vec<Command>,
    called: usize,
    begun: bool,
    streams: Vec<Stream>,
    buffers: Vec<Buffer>,
    repeating: Option<Vec<usize>>,
    requests: u32,
    sent_before: bool,
    since_call: u32,
    done_since_begin: u32,
    next_frame: u32,
    frames: VecDeque<Frame>,
    readouts: Vec<Box<[u16]>>,
    last_time: Option<u64>,
    unsignalled: VecDeque<u64>,
    fences: u64,
    pub out: Vec<u8>,
}

fn number(out: &mut Vec<u8>, value: u64) {
    let mut digits = [0u8; 20];
    let mut at = digits.len();
    let mut left = value;
    loop {
        at -= 1;
        digits[at] = b'0' + (left % 10) as u8;
        left /= 10;
        if left == 0 {
            break;
        }
    }
    out.extend_from_slice(&digits[at..]);
}

pub fn hex(out: &mut Vec<u8>, bytes: &[u8]) {
    const DIGITS: &[u8; 16] = b"0123456789abcdef";
    out.extend(bytes.iter().flat_map(|byte| [DIGITS[usize::from(byte >> 4)], DIGITS[usize::from(byte & 15)]]));
}

/// A line from words: texts and numbers.
macro_rules! line {
    ($out:expr, $($part:expr),*) => {{ $( $part.put(&mut $out); )* $out.push(b'\n'); }};
}

trait Put {
    fn put(&self, out: &mut Vec<u8>);
}

impl Put for &str {
    fn put(&self, out: &mut Vec<u8>) {
        out.extend_from_slice(self.as_bytes());
    }
}

impl Put for u64 {
    fn put(&self, out: &mut Vec<u8>) {
        number(out, *self);
    }
}

impl Put for u32 {
    fn put(&self, out: &mut Vec<u8>) {
        number(out, u64::from(*self));
    }
}

impl Put for usize {
    fn put(&self, out: &mut Vec<u8>) {
        number(out, *self as u64);
    }
}

pub fn packed(part: u32, time: u64, out: &mut Vec<u8>) {
    let mut bytes = Vec::with_capacity(64);
    let (count, data) = match part {
        1 => (2u32, 0u32),
        2 => (2, 8),
        _ => (1, 8),
    };
    for word in [1, count, data, 16 + 16 * count + data] {
        bytes.extend_from_slice(&word.to_le_bytes());
    }
    let mut entry = |tag: u32, value: u32, kind: u8| {
        for word in [0x8000_0000 + tag, 1, value, u32::from(kind)] {
            bytes.extend_from_slice(&word.to_le_bytes());
        }
    };
    match part {
        1 => {
            entry(0, 2, 0);
            entry(1, LEVEL, 1);
        }
        2 => {
            entry(2, 0, 3);
            entry(3, ISO, 1);
            bytes.extend_from_slice(&EXPOSURE.to_le_bytes());
        }
        _ => {
            entry(4, 0, 3);
            bytes.extend_from_slice(&time.to_le_bytes());
        }
    }
    hex(out, &bytes);
}

impl Camera {
    pub fn new(commands: Vec<Command>) -> Camera {
        let readouts = (0..7).map(|_| vec![0u16; 160 * 120].into_boxed_slice()).collect();
        Camera {
            commands, called: 0, begun: false, streams: Vec::new(), buffers: Vec::new(), repeating: None, requests: 0,
            sent_before: false, since_call: 0, done_since_begin: 0, next_frame: 0, frames: VecDeque::new(), readouts,
            last_time: None, unsignalled: VecDeque::new(), fences: 0, out: b"trace 1\n".to_vec(),
        }
    }

    pub fn is_complete(&self) -> bool {
        self.called == self.commands.len() && self.is_idle() && self.unsignalled.is_empty()
    }

    fn is_idle(&self) -> bool {
        self.frames.is_empty() && self.buffers.iter().all(|buffer| buffer.place == Place::Pool)
    }

    fn awaited(&self) -> u32 {
        match self.commands.get(self.called) {
            Some(Command::Await(count)) if self.begun => *count,
            _ => 0,
        }
    }

    // ---- the steps: each is made where it is ready

    pub fn send(&mut self) -> bool {
        let Some(wanted) = &self.repeating else { return false };
        let holds_back = self.begun && matches!(self.commands[self.called], Command::Configure(_) | Command::Close);
        if holds_back || self.since_call >= 64 + self.awaited() || self.frames.len() >= 6 {
            return false;
        }
        let mut targets = Vec::with_capacity(wanted.len());
        for &stream in wanted {
            let of = &self.streams[stream];
            let buffers = &self.buffers[of.buffers.clone()];
            let away = buffers.iter().filter(|buffer| buffer.place == Place::Device).count() as u32;
            let free = buffers.iter().position(|buffer| buffer.place == Place::Pool);
            let (true, Some(free)) = (away < of.format.most_at_device(), free) else { return false };
            let buffer = of.buffers.start + free;
            let fence = self.buffers[buffer].fence;
            targets.push(Target { stream, buffer, fence, work: Work::Waiting, digest: [0; 32] });
        }
        let mark = if self.sent_before { " same" } else { " new" };
        line_start(&mut self.out, self.next_frame, self.requests - 1, mark);
        for target in &targets {
            self.buffers[target.buffer].place = Place::Device;
            " ".put(&mut self.out);
            target.stream.put(&mut self.out);
            ":b".put(&mut self.out);
            target.buffer.put(&mut self.out);
            match target.fence {
                Some(fence) => {
                    ":f".put(&mut self.out);
                    fence.put(&mut self.out);
                }
                None => ":-".put(&mut self.out),
            }
        }
        self.out.push(b'\n');
        let frame = Frame { number: self.next_frame, targets, time: None, exposed: false, parts: 0, readout: None };
        self.frames.push_back(frame);
        self.next_frame += 1;
        self.since_call += 1;
        self.sent_before = true;
        true
    }

    pub fn release(&mut self) -> bool {
        let Some(at) = self.buffers.iter().position(|buffer| buffer.place == Place::Client) else { return false };
        self.buffers[at].place = Place::Pool;
        self.buffers[at].fence = Some(self.fences);
        self.unsignalled.push_back(self.fences);
        line!(self.out, "release b", at, " f", self.fences);
        self.fences += 1;
        true
    }

    pub fn signal(&mut self) -> bool {
        let Some(fence) = self.unsignalled.pop_front() else { return false };
        line!(self.out, "signal f", fence);
        true
    }

    pub fn client(&mut self) -> bool {
        let Some(command) = self.commands.get(self.called) else { return false };
        let word = command.word();
        if command.waits() && !self.begun {
            line!(self.out, "begin ", word);
            self.begun = true;
            self.done_since_begin = 0;
            return true;
        }
        let over = match command {
            Command::Repeat(_) | Command::Stop => true,
            Command::Await(count) => self.done_since_begin >= *count,
            _ => self.is_idle(),
        };
        if !over {
            return false;
        }
        "call ".put(&mut self.out);
        self.called.put(&mut self.out);
        " ".put(&mut self.out);
        word.put(&mut self.out);
        " = ok".put(&mut self.out);
        match command.clone() {
            Command::Configure(formats) => self.configure(&formats),
            Command::Repeat(targets) => {
                self.repeating = Some(targets);
                " r".put(&mut self.out);
                self.requests.put(&mut self.out);
                self.requests += 1;
            }
            Command::Stop | Command::Close => self.repeating = None,
            Command::Await(_) | Command::Wait => {}
        }
        self.out.push(b'\n');
        self.called += 1;
        self.begun = false;
        self.since_call = 0;
        true
    }

    fn configure(&mut self, formats: &[Format]) {
        for (place, &format) in formats.iter().enumerate() {
            let first = self.buffers.len();
            let count = format.most_at_device() as usize + 2;
            for _ in 0..count {
                let bytes = Some(vec![0; format.bytes()].into_boxed_slice());
                self.buffers.push(Buffer { place: Place::Pool, fence: None, bytes });
            }
            self.streams.push(Stream { format, buffers: first..first + count });
            " ".put(&mut self.out);
            place.put(&mut self.out);
            ":b".put(&mut self.out);
            first.put(&mut self.out);
            "+".put(&mut self.out);
            count.put(&mut self.out);
        }
        self.repeating = None;
        self.sent_before = false;
    }

    /// Begins the next exposure.
    pub fn shutter(&mut self) -> Option<Job> {
        let frame = self.frames.iter_mut().find(|frame| frame.time.is_none())?;
        let readout = self.readouts.pop()?;
        let time = self.last_time.map_or(1_000_000_000, |last| last + EXPOSURE.max(33_333_333));
        frame.time = Some(time);
        self.last_time = Some(time);
        line!(self.out, "shutter ", frame.number, " ", time);
        Some(Job::Expose { frame: frame.number, readout })
    }

    pub fn partial(&mut self) -> bool {
        let mut ended = true;
        for at in 0..self.frames.len() {
            let frame = &mut self.frames[at];
            if let (Some(time), true) = (frame.time, frame.parts < 2 || (frame.parts == 2 && ended)) {
                frame.parts += 1;
                "partial ".put(&mut self.out);
                frame.number.put(&mut self.out);
                " ".put(&mut self.out);
                frame.parts.put(&mut self.out);
                " ".put(&mut self.out);
                packed(frame.parts, time, &mut self.out);
                self.out.push(b'\n');
                self.retire(at);
                return true;
            }
            ended = ended && frame.parts == 3;
        }
        false
    }

    /// Begins the next fill.
    pub fn take_fill(&mut self) -> Option<Job> {
        for frame in &mut self.frames {
            if !frame.exposed || frame.readout.is_none() {
                continue;
            }
            let unsignalled = &self.unsignalled;
            let passed = |fence: Option<u64>| fence.is_none_or(|fence| !unsignalled.contains(&fence));
            let ready = |target: &Target| target.work == Work::Waiting && passed(target.fence);
            if let Some(at) = frame.targets.iter().position(ready) {
                let target = &mut frame.targets[at];
                target.work = Work::Out;
                let (readout, bytes) = (frame.readout.take()?, self.buffers[target.buffer].bytes.take()?);
                let format = self.streams[target.stream].format;
                return Some(Job::Draw { frame: frame.number, target: at, format, readout, bytes, digest: [0; 32] });
            }
        }
        None
    }

    /// Takes a job back that was worked on.
    pub fn end(&mut self, job: Job) {
        match job {
            Job::Expose { frame, readout } => {
                let place = (0..self.frames.len()).find(|&at| self.frames[at].number == frame).expect("an open frame");
                let frame = &mut self.frames[place];
                frame.exposed = true;
                frame.readout = Some(readout);
            }
            Job::Draw { frame, target, readout, bytes, digest, .. } => {
                let place = (0..self.frames.len()).find(|&at| self.frames[at].number == frame).expect("an open frame");
                let frame = &mut self.frames[place];
                let target = &mut frame.targets[target];
                target.work = Work::Filled;
                target.digest = digest;
                self.buffers[target.buffer].bytes = Some(bytes);
                frame.readout = Some(readout);
            }
        }
    }

    pub fn deliver(&mut self) -> bool {
        let mut held = [false; 4];
        for at in 0..self.frames.len() {
            let frame = &mut self.frames[at];
            for target in &mut frame.targets {
                if target.work == Work::Filled && !held[target.stream] {
                    target.work = Work::Back;
                    self.buffers[target.buffer].place = Place::Client;
                    "buffer ".put(&mut self.out);
                    frame.number.put(&mut self.out);
                    " ".put(&mut self.out);
                    target.stream.put(&mut self.out);
                    " b".put(&mut self.out);
                    target.buffer.put(&mut self.out);
                    " ok - ".put(&mut self.out);
                    hex(&mut self.out, &target.digest);
                    self.out.push(b'\n');
                    self.retire(at);
                    return true;
                }
                held[target.stream] |= target.work != Work::Back;
            }
        }
        false
    }

    /// Lets a frame go that is done with.
    fn retire(&mut self, at: usize) {
        if self.frames[at].is_done() {
            if let Some(readout) = self.frames.remove(at).and_then(|frame| frame.readout) {
                self.readouts.push(readout);
            }
            self.done_since_begin += 1;
        }
    }
}

fn line_start(out: &mut Vec<u8>, frame: u32, request: u32, mark: &str) {
    "send ".put(out);
    frame.put(out);
    " r".put(out);
    request.put(out);
    ".0".put(out);
    mark.put(out);
}
