//! Steps past obstacles in a box of 256 by 256 cells: what a step and the obstacles' call after it take, on each level, against
//! a run of as many steps without obstacles.

use crate::by_level::{self, Line, Work};
use crate::study::Study;
use brothwagon::{MAGIC_BOUNCE_BACK, Obstacle, ffi};
use std::io;

const STUDY: Study = Study { side: 256, density: 1, kind: 0, forced: false };

/// The side of a square that fills a hundredth of the cells.
const SQUARE: usize = 26;

/// The steps that are timed at once.
const STEPS: u64 = 20;

/// So many times the usual turns: what is asked for here is a few parts of a hundred, less than a turn differs from the next.
const MORE: u32 = 5;

/// What is timed, as words to a worker: a run; as many calls of step; and those with obstacles in one cell, or in a square.
const TIMED: [&str; 4] = ["run", "step", "cell", "square"];

/// The table: the titles, and a row for each level, timed in so many usual turns.
pub fn table(turns: u32) -> io::Result<Vec<[String; 5]>> {
    let past = |cells: usize| format!("(step + call)/run, {cells} cell{}", if cells == 1 { "" } else { "s" });
    let title = format!("obstacles, {0} by {0}", STUDY.side);
    let titles = [title, "run, ms a step".into(), "step/run".into(), past(1), past(SQUARE * SQUARE)];
    let row = |Line { level, times: [run, step, cell, square] }| {
        let part = |time: f64| format!("{:.3}", time / run);
        [level, format!("{:.3}", run / STEPS as f64), part(step), part(cell), part(square)]
    };
    Ok([titles].into_iter().chain(by_level::times("obstacles", TIMED, MORE * turns)?.into_iter().map(row)).collect())
}

/// The cells that obstacles fill after each step of what a word says: a square in the middle.
fn list(word: &str) -> Vec<Obstacle> {
    let side = match word {
        "cell" => 1,
        "square" => SQUARE,
        _ => 0,
    };
    let from = (STUDY.side - side) / 2;
    (from..from + side).flat_map(|y| (from..from + side).map(move |x| Obstacle { x, y })).collect()
}

/// What a worker has: the populations, and the post-collision state.
pub struct Obstacles {
    settings: ffi::Settings,
    f: Vec<f64>,
    post: Vec<f64>,
}

impl Obstacles {
    pub fn new() -> Obstacles {
        let f = STUDY.start();
        Obstacles { settings: STUDY.settings(), post: vec![0.0; f.len()], f }
    }

    fn step(&mut self) {
        assert_eq!(ffi::step(&self.settings, &mut self.f, &mut self.post), 0);
    }

    fn step_past(&mut self, list: &[Obstacle]) {
        self.step();
        assert_eq!(ffi::set_no_slip_bc(&self.settings, list, &mut self.f), 0);
    }

    /// Whether what a word says ends from the start as the Rust does, bit for bit.
    fn ends_alike(&mut self, word: &str) -> bool {
        self.f = STUDY.start();
        self.act(word);
        let mut rust = source::solver(&self.settings, Some(MAGIC_BOUNCE_BACK), STUDY.start(), self.post.clone());
        for _ in 0..STEPS {
            rust.run(1);
            rust.set_no_slip_bc(&list(word));
        }
        rust.f().iter().zip(&self.f).all(|(f, g)| f.to_bits() == g.to_bits())
    }
}

impl Work for Obstacles {
    fn act(&mut self, word: &str) -> bool {
        let list = list(word);
        match word {
            "run" => assert_eq!(ffi::run(&self.settings, STEPS, &mut self.f, &mut self.post), 0),
            "step" => (0..STEPS).for_each(|_| self.step()),
            "cell" | "square" => (0..STEPS).for_each(|_| self.step_past(&list)),
            _ => return false,
        }
        true
    }

    fn alike(&mut self) -> bool {
        TIMED.into_iter().all(|word| self.ends_alike(word))
    }
}
