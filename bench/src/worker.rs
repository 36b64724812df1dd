//! A process of its own that takes steps when it is told to: one for the Rust, one for the Rust built for this very processor,
//! one for each level of the port, and one that copies.
//!
//! On standard input, a line each: `study` and a study's words, answered by a line `ready`; `turn N`, answered by the
//! nanoseconds that N steps took; `end`, answered by the bytes of both buffers.

use crate::study::Study;
use brothwagon::{MAGIC_BOUNCE_BACK, ffi};
use source::Solver;
use source::levels::as_asked;
use std::hint::black_box;
use std::io::{self, BufRead, Write, stdin, stdout};
use std::time::Instant;

/// Who takes the steps.
enum Taker {
    Rust(Box<dyn Solver>),
    Port {
        settings: ffi::Settings,
        f: Vec<f64>,
        post: Vec<f64>,
    },
    /// A step of the port reads and writes each buffer once; so does this, and no more.
    Copy {
        f: Vec<f64>,
        post: Vec<f64>,
    },
}

impl Taker {
    fn new(role: &str, study: &Study) -> Taker {
        let (settings, f) = (study.settings(), study.start());
        let post = vec![0.0; f.len()];
        match role {
            "rust" => Taker::Rust(source::solver(&settings, Some(MAGIC_BOUNCE_BACK), f, post)),
            "copy" => Taker::Copy { f, post },
            _ => Taker::Port { settings, f, post },
        }
    }

    fn take(&mut self, steps: u64) {
        match self {
            Taker::Rust(solver) => solver.run(steps as usize),
            Taker::Port { settings, f, post } => assert_eq!(ffi::run(settings, steps, f, post), 0),
            Taker::Copy { f, post } => {
                for _ in 0..steps {
                    black_box(&mut *post).copy_from_slice(black_box(f));
                    black_box(&mut *f).copy_from_slice(black_box(post));
                }
            }
        }
    }

    /// The populations, and the post-collision state.
    fn end(&mut self) -> [&[f64]; 2] {
        match self {
            // The Rust lends one at a time, so they are moved out.
            Taker::Rust(solver) => {
                let f = std::mem::take(solver.f());
                let post = std::mem::take(solver.post());
                *self = Taker::Copy { f, post };
                self.end()
            }
            Taker::Port { f, post, .. } | Taker::Copy { f, post } => [f, post],
        }
    }
}

/// Does as it is told until there is nothing more to read.
pub fn work(role: &str) -> io::Result<()> {
    assert!(as_asked(), "the library runs on another level");
    let mut out = stdout().lock();
    let mut taker = None;
    for line in stdin().lock().lines() {
        let line = line?;
        let words: Vec<&str> = line.split(' ').collect();
        match (&words[..], &mut taker) {
            (["study", study @ ..], _) => {
                drop(taker.take());
                taker = Study::read(study).map(|study| Taker::new(role, &study));
                writeln!(out, "ready")?;
            }
            (["turn", steps], Some(taker)) => {
                let steps = steps.parse().map_err(io::Error::other)?;
                let began = Instant::now();
                taker.take(steps);
                writeln!(out, "{}", began.elapsed().as_nanos())?;
            }
            (["end"], Some(taker)) => {
                for buffer in taker.end() {
                    for entries in buffer.chunks(1 << 13) {
                        let bytes: Vec<u8> = entries.iter().flat_map(|entry| entry.to_bits().to_le_bytes()).collect();
                        out.write_all(&bytes)?;
                    }
                }
            }
            _ => return Err(io::Error::other(format!("`{line}` is not understood"))),
        }
        out.flush()?;
    }
    Ok(())
}
