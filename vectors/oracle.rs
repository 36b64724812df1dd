//! Writes the list that the program of crates/vectors is held to: the Rust's answers on made-up inputs.
//! The program makes the same inputs, from the same seed and in the same order.

mod boundary;
mod collision;
mod d2q9;
mod special;

use boundary::{Boundaries, Boundary, Side};
use collision::CollisionModel;
use d2q9::{E, LatticeBoltzmann2D};
use special::SPECIAL;

/// Marsaglia's xorshift: the made-up numbers.
struct Made(u64);

fn shifted(x: u64) -> u64 {
    let a = x ^ (x << 13);
    let b = a ^ (a >> 7);
    b ^ (b << 17)
}

impl Made {
    fn next(&mut self) -> u64 {
        self.0 = shifted(self.0);
        self.0
    }

    /// Mode 0: from 0.5 to 1; mode 1: any pattern; mode 2: one in four special, the rest from 0.5 to 1; mode 3: from 1/16 to
    /// 1/8, so that nine are near the density 1.
    fn pattern(&mut self, mode: u64) -> u64 {
        let x = self.next();
        match mode {
            1 => x,
            2 if x % 4 == 0 => SPECIAL[(x >> 8) as usize % 16],
            3 => 0x3fb0_0000_0000_0000 | (x >> 12),
            _ => 0x3fe0_0000_0000_0000 | (x >> 12),
        }
    }

    fn number(&mut self, mode: u64) -> f64 {
        f64::from_bits(self.pattern(mode))
    }

    fn numbers(&mut self, mode: u64, n: usize) -> Vec<f64> {
        (0..n).map(|_| self.number(mode)).collect()
    }

    /// A face of the kind 0 to 5, with numbers from 0.05 to 0.1 (speeds) and 0.5 to 1 (densities).
    fn face(&mut self, kind: u64) -> Boundary<2> {
        let (a, b, d) = (self.number(0) / 10.0, self.number(0) / 10.0, self.number(0));
        match kind {
            0 => Boundary::Periodic,
            1 => Boundary::NoSlip,
            2 => Boundary::MovingWall([a, b]),
            3 => Boundary::Symmetry,
            4 => Boundary::Velocity([a, b]),
            _ => Boundary::Pressure(d),
        }
    }
}

/// A collision of the kind 0 to 2.
fn collision(kind: u64, rate: f64) -> CollisionModel {
    match kind {
        0 => CollisionModel::Bgk,
        1 => CollisionModel::Trt { magic: rate },
        _ => CollisionModel::Mrt,
    }
}

/// The force where its bits want it: 1 in x, 2 in y.
fn wanted(force: u64, fx: f64, fy: f64) -> [f64; 2] {
    [if force & 1 == 1 { fx } else { 0.0 }, if force & 2 == 2 { fy } else { 0.0 }]
}

/// The pattern of a number that arithmetic made: any NaN is listed as the one NaN.
fn pattern(x: f64) -> u64 {
    if x.is_nan() { 0x7ff8_0000_0000_0000 } else { x.to_bits() }
}

fn bits(numbers: &[f64]) -> Vec<u64> {
    numbers.iter().map(|x| x.to_bits()).collect()
}

fn patterns(numbers: &[f64]) -> Vec<u64> {
    numbers.iter().map(|&x| pattern(x)).collect()
}

/// One number for a long list of patterns.
fn mixed(patterns: &[u64]) -> u64 {
    patterns.iter().fold(1, |s: u64, &p| shifted(s.wrapping_add(p)))
}

fn line(patterns: &[u64]) {
    let words: Vec<String> = patterns.iter().map(|p| format!("{p:016x}")).collect();
    println!("{}", words.join(" "));
}

/// One cell's collision: each kind, without force, with a force in x, in y and in both, in each mode.
fn cells(made: &mut Made) {
    for kind in 0..3 {
        for force in 0..4 {
            for mode in 0..3 {
                for _ in 0..3 {
                    let f = made.numbers(mode, 9);
                    let (tau, rate) = (made.number(mode), made.number(mode));
                    let (fx, fy) = (made.number(mode), made.number(mode));
                    let mut lbm = LatticeBoltzmann2D::new(1, 1, 0.0)
                        .with_collision(collision(kind, rate))
                        .with_force(wanted(force, fx, fy));
                    lbm.tau = tau;
                    lbm.f = f;
                    lbm.collide_only();
                    line(&patterns(lbm.post()));
                }
            }
        }
    }
}

/// The velocity of every cell, both components of a cell beside each other.
fn field(lbm: &LatticeBoltzmann2D) -> Vec<f64> {
    lbm.velocity_field().into_iter().flatten().collect()
}

/// The readings of a grid: each cell's density and velocity, the velocity field, mass and energy; and the initial populations.
fn readings(made: &mut Made) {
    for (nx, ny) in [(1, 1), (3, 2), (2, 5)] {
        for mode in 0..3 {
            let mut lbm = LatticeBoltzmann2D::new(nx, ny, 0.1).with_force([made.number(0), made.number(0)]);
            lbm.f = made.numbers(mode, 9 * nx * ny);
            for y in 0..ny {
                for x in 0..nx {
                    let u = lbm.velocity(x, y);
                    line(&patterns(&[lbm.density(x, y), u[0], u[1]]));
                }
            }
            line(&[mixed(&patterns(&field(&lbm)))]);
            line(&patterns(&[lbm.total_mass(), lbm.kinetic_energy()]));
            let table = made.numbers(mode, 3 * nx * ny);
            lbm.initialize_with(|x, y| {
                let c = 3 * (x + y * nx);
                (table[c], [table[c + 1], table[c + 2]])
            });
            for i in 0..9 {
                line(&patterns(&lbm.f[i * nx * ny..(i + 1) * nx * ny]));
            }
        }
    }
}

/// The kinds k and l at x min and y min, and those `shift` further on at x max and y max.
fn boundaries(made: &mut Made, k: u64, l: u64, shift: u64) -> Boundaries<2> {
    let [a, b, c, d] = [k, (k + shift) % 6, l, (l + shift) % 6].map(|kind| made.face(kind));
    Boundaries::periodic().set(0, Side::Min, a).set(0, Side::Max, b).set(1, Side::Min, c).set(1, Side::Max, d)
}

/// Whether the last face to write an entry computes it: its NaN, if it is one, then has no bits of its own.
fn computed(lbm: &LatticeBoltzmann2D, x: usize, y: usize, i: usize) -> bool {
    let place = [(x, lbm.nx), (y, lbm.ny)];
    for axis in [1, 0] {
        for side in [Side::Max, Side::Min] {
            let (k, n) = place[axis];
            let (on, inward) = match side {
                Side::Min => (k == 0, E[i][axis] > 0),
                Side::Max => (k + 1 == n, E[i][axis] < 0),
            };
            let kind = lbm.boundaries.get(axis, side);
            if on && inward && !kind.is_periodic() {
                return !matches!(kind, Boundary::NoSlip | Boundary::Symmetry);
            }
        }
    }
    false
}

/// Streaming with faces: every pair of kinds on the x and the y faces, sides of 1, 2, 3 and 5, in each mode.
fn streaming(made: &mut Made) {
    for (nx, ny) in [(1, 1), (2, 1), (1, 3), (2, 2), (3, 5), (5, 2)] {
        for pair in 0..36 {
            for mode in 0..3 {
                let faces = boundaries(made, pair % 6, pair / 6, mode);
                let mut lbm = LatticeBoltzmann2D::new(nx, ny, 0.1).with_boundaries(faces);
                *lbm.post() = made.numbers(mode, 9 * nx * ny);
                lbm.stream_only();
                let mut next = Vec::new();
                for i in 0..9 {
                    for y in 0..ny {
                        for x in 0..nx {
                            let v = lbm.f[x + y * nx + i * nx * ny];
                            next.push(if computed(&lbm, x, y, i) { pattern(v) } else { v.to_bits() });
                        }
                    }
                }
                line(&[mixed(&next)]);
            }
        }
    }
}

/// A made-up study: settings and buffers, from which the same solver can be made twice.
struct Study {
    nx: usize,
    ny: usize,
    nu: f64,
    collision: CollisionModel,
    force: [f64; 2],
    faces: Boundaries<2>,
    f: Vec<f64>,
    post: Vec<f64>,
}

impl Study {
    /// Study q of 108: each pair of kinds at x min and y min with each kind of collision. The rest is drawn.
    fn drawn(made: &mut Made, nx: usize, ny: usize, q: u64) -> Study {
        let c = made.next();
        let (shift, force, mode) = (c % 6, (c >> 8) % 4, (c >> 16) % 4);
        let (nu, rate) = (made.number(0) / 10.0, made.number(0));
        let (fx, fy) = (made.number(0) / 100.0, made.number(0) / 100.0);
        Study {
            nx,
            ny,
            nu,
            collision: collision(q % 3, rate),
            force: wanted(force, fx, fy),
            faces: boundaries(made, q / 3 % 6, q / 18, shift),
            f: made.numbers(mode, 9 * nx * ny),
            post: made.numbers(mode, 9 * nx * ny),
        }
    }

    fn solver(&self) -> LatticeBoltzmann2D {
        let mut lbm = LatticeBoltzmann2D::new(self.nx, self.ny, self.nu)
            .with_collision(self.collision)
            .with_force(self.force)
            .with_boundaries(self.faces);
        lbm.f = self.f.clone();
        *lbm.post() = self.post.clone();
        lbm
    }
}

/// A buffer after so many steps: with all its bits if there was none, since else arithmetic made every entry.
fn after(steps: usize, buffer: &[f64]) -> u64 {
    mixed(&if steps == 0 { bits(buffer) } else { patterns(buffer) })
}

/// Runs of 0, 1, 2 and 7 steps, and single steps: the number, then the populations and the post-collision buffer.
/// A wall's density over -0.0 alone, which Rust's `sum` gives another sign, comes up nowhere here.
fn runs(made: &mut Made) {
    for (nx, ny) in [(1, 1), (2, 1), (4, 4), (3, 5), (5, 2)] {
        for q in 0..108 {
            let study = Study::drawn(made, nx, ny, q);
            let mut lbm = study.solver();
            let choice = made.next() as usize % 5;
            let steps = [0, 1, 2, 7, 1][choice];
            if choice == 4 {
                lbm.step();
            } else {
                lbm.run(steps);
            }
            line(&[0, after(steps, &lbm.f), after(steps, lbm.post())]);
        }
    }
}

/// Whether a cell has a density or a velocity component that is not finite.
fn bad(lbm: &LatticeBoltzmann2D) -> bool {
    let densities = (0..lbm.nx * lbm.ny).map(|c| lbm.density(c % lbm.nx, c / lbm.nx));
    densities.chain(field(lbm)).any(|x| !x.is_finite())
}

/// A steady run: number, settled, steps, residual; then the populations, the post-collision and the velocity buffer.
/// The Rust's answer, unless one of its snapshots is bad: its `max` drops NaN, and it looks at no density, so its steps are taken
/// again to look.
fn steady(study: &Study, u: &[f64], tolerance: f64, most: usize, every: usize) {
    let mut lbm = study.solver();
    let (steps, residual) = lbm.run_to_steady_state(tolerance, most, every);
    let mut again = study.solver();
    let mut last = bits(u);
    for k in 0..=steps {
        if k > 0 {
            again.step();
        }
        if k % every.max(1) == 0 {
            if bad(&again) {
                return line(&[9, 0, k as u64, 0, after(k, &again.f), after(k, again.post()), mixed(&last)]);
            }
            last = bits(&field(&again));
        }
    }
    let settled = (residual < tolerance) as u64;
    line(&[0, settled, steps as u64, residual.to_bits(), after(steps, &lbm.f), after(steps, lbm.post()), mixed(&last)]);
}

/// Steady runs of made-up studies, with a tolerance, most steps and steps between checks that are drawn.
fn steadies(made: &mut Made) {
    for (nx, ny) in [(1, 1), (2, 3), (4, 4)] {
        for q in 0..108 {
            let study = Study::drawn(made, nx, ny, q);
            let c = made.next();
            let tolerance = [f64::INFINITY, -1.0, 0.0, 0.1, 0.01, 0.001][c as usize % 6];
            let most = (c >> 8) as usize % 8 * 20;
            let every = [0, 1, 3, 50][(c >> 16) as usize % 4];
            let u = made.numbers(1, 2 * nx * ny);
            steady(&study, &u, tolerance, most, every);
        }
    }
}

/// A steady run that the Rust calls settled after one step, on cells in a row: all populations are 0.0 but those of `held`, each
/// given by its place in the buffer.
fn ruined(nx: usize, held: &[(usize, u64)]) {
    let mut f = vec![0.0; 9 * nx];
    for &(at, pattern) in held {
        f[at] = f64::from_bits(pattern);
    }
    let study = Study {
        nx,
        ny: 1,
        nu: 100.0,
        collision: CollisionModel::Bgk,
        force: [0.0, 0.0],
        faces: Boundaries::periodic(),
        f,
        post: vec![0.0; 9 * nx],
    };
    assert_eq!(study.solver().run_to_steady_state(1e-9, 10, 1), (1, 0.0));
    steady(&study, &vec![0.5; 2 * nx], 1e-9, 10, 1);
}

/// The steady runs of docs/DIFFERENCES.md: over a NaN, over a density of minus infinity, and over densities that overflow while
/// every velocity is (0, 0).
fn all_ruined() {
    ruined(1, &[(0, 0x7ff8_0000_0000_0000)]);
    ruined(1, &[(0, 0xfff0_0000_0000_0000)]);
    // Directions 1 and 3 cancel in the momentum.
    ruined(1, &[(1, 0x7fe0_0000_0000_0000), (3, 0x7fe0_0000_0000_0000)]);
    // After a step those of the first of two cells are at the second, which is at rest: the sum overflows there.
    for sign in [0x8000_0000_0000_0000, 0] {
        let (moving, resting) = (sign | 0x7fd0_0000_0000_0000, sign | 0x7fe8_0000_0000_0000);
        ruined(2, &[(2, moving), (6, moving), (1, resting)]);
    }
}

/// One cell about its floor, each kind of collision at each floor: the velocity, then the nine post-collision entries. All of the
/// density moves in one direction: it is the number before the floor, the floor, or the number after it, of either sign.
fn floors() {
    for k in 0..108 {
        let floor: f64 = [5e-324, 1e-300, 1e-20, 0.5, 1.0, 1e300][k as usize / 6 % 6];
        let beside = [floor.next_down(), floor, floor.next_up()][k as usize % 3];
        let mut lbm = LatticeBoltzmann2D::new(1, 1, 0.1)
            .with_collision(collision(k / 36, 1.25))
            .with_force(wanted(u64::from(k % 5 < 2), 0.01, 0.0));
        lbm.floor = floor;
        lbm.f[1 + k as usize % 8] = if k / 3 % 2 == 1 { -beside } else { beside };
        line(&patterns(&lbm.velocity(0, 0)));
        lbm.collide_only();
        line(&patterns(lbm.post()));
    }
}

fn main() {
    let mut made = Made(88172645463325252);
    cells(&mut made);
    readings(&mut made);
    streaming(&mut made);
    runs(&mut made);
    steadies(&mut made);
    all_ruined();
    floors();
}
