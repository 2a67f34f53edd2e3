//! The camera on threads: one mutex around it, and one condition that is told of each step.
use crate::camera::{Camera, Job};
use crate::picture::Digests;
use std::sync::{Condvar, Mutex};
use std::thread;

struct Shared {
    camera: Mutex<Camera>,
    moved: Condvar,
}

impl Shared {
    /// Makes steps of one kind until the run is complete.
    fn make(&self, mut step: impl FnMut(&mut Camera) -> bool) {
        let mut camera = self.camera.lock().unwrap();
        loop {
            if step(&mut camera) {
                self.moved.notify_all();
            } else if camera.is_complete() {
                self.moved.notify_all();
                return;
            } else {
                camera = self.moved.wait(camera).unwrap();
            }
        }
    }

    /// Takes jobs and works on them, without the mutex, until the run is complete.
    fn work(&self, digests: &mut Digests, mut take: impl FnMut(&mut Camera) -> Option<Job>) {
        let mut camera = self.camera.lock().unwrap();
        loop {
            if let Some(mut job) = take(&mut camera) {
                self.moved.notify_all();
                drop(camera);
                job.work(digests);
                camera = self.camera.lock().unwrap();
                camera.end(job);
                self.moved.notify_all();
            } else if camera.is_complete() {
                self.moved.notify_all();
                return;
            } else {
                camera = self.moved.wait(camera).unwrap();
            }
        }
    }
}

/// Runs to the end, and answers the trace.
pub fn run(camera: Camera, workers: usize) -> Vec<u8> {
    let shared = Shared { camera: Mutex::new(camera), moved: Condvar::new() };
    thread::scope(|scope| {
        scope.spawn(|| shared.make(Camera::client));
        scope.spawn(|| shared.make(Camera::send));
        scope.spawn(|| shared.make(|camera| camera.release() || camera.signal()));
        scope.spawn(|| shared.make(|camera| camera.partial() || camera.deliver()));
        scope.spawn(|| shared.work(&mut Digests::new(), Camera::shutter));
        for _ in 0..workers {
            scope.spawn(|| shared.work(&mut Digests::new(), Camera::take_fill));
        }
    });
    let mut camera = shared.camera.into_inner().unwrap();
    camera.out.extend_from_slice(b"end\n");
    camera.out
}
