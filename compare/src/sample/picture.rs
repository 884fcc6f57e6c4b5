//! The picture of the sample: two lining segments, the dark gap between them, the lit lip of the
//! lower one, a bolt pocket, a round survey mark, blotches of concrete and noise. Only sums,
//! products and square roots are used, so that every machine draws the same numbers.

use compare::rng::Rng;

pub const WIDTH: usize = 640;
pub const HEIGHT: usize = 480;

/// The code that stands for 0 in a plane.
const BIAS: f64 = 2048.0;

pub type Rows = Vec<Vec<i32>>;

/// The planes of a frame or of a tile.
pub struct Planes {
    pub green: Rows,
    pub red: Rows,
    pub blue: Rows,
}

/// The frame's planes.
pub fn draw() -> Planes {
    let mut rng = Rng::new(1);
    let scene = Scene { blotches: blotches(&mut rng) };
    let mut plane = |columns: usize, number: &dyn Fn(usize, usize) -> f64| -> Rows {
        let mut row = |y| (0..columns).map(|x| (number(x, y) + noise(&mut rng)).round() as i32).collect();
        (0..HEIGHT / 2).map(&mut row).collect()
    };
    let tint = |x: usize, y: usize| scene.tint(2.0 * x as f64, 2.0 * y as f64);
    Planes {
        green: plane(WIDTH, &|x, y| scene.code(x as f64, (2 * y + 1 - x % 2) as f64) - BIAS),
        red: plane(WIDTH / 2, &|x, y| tint(x, y)),
        blue: plane(WIDTH / 2, &|x, y| -0.7 * tint(x, y)),
    }
}

/// Noise around 0 that is mostly below 8.
fn noise(rng: &mut Rng) -> f64 {
    let sum: f64 = (0..4).map(|_| rng.unit()).sum();
    6.0 * (sum - 2.0)
}

/// Side of a blotch, and blotches in a row and a column of the lattice.
const BLOTCH: f64 = 20.0;
const LATTICE: (usize, usize) = (WIDTH / 20 + 2, HEIGHT / 20 + 2);

fn blotches(rng: &mut Rng) -> Rows {
    let mut row = |_| (0..LATTICE.0).map(|_| rng.within(0, 160) as i32 - 80).collect();
    (0..LATTICE.1).map(&mut row).collect()
}

/// From 0 where `distance` is below 0 to 1 where it is above `over`.
fn ramp(distance: f64, over: f64) -> f64 {
    (distance / over).clamp(0.0, 1.0)
}

/// `from` where `share` is 0, `to` where it is 1.
fn mix(from: f64, to: f64, share: f64) -> f64 {
    from + (to - from) * share
}

struct Scene {
    blotches: Rows,
}

impl Scene {
    /// The green code at a place of the frame.
    fn code(&self, x: f64, y: f64) -> f64 {
        let (across, half_gap) = joint(x, y);
        let plate = if across < 0.0 { 2500.0 - 0.3 * x } else { 2250.0 - 0.3 * x };
        let bare = mark(pocket(plate + self.blotch(x, y), x, y), x, y);
        let shaded = bare - 350.0 * (1.0 - ramp(-across - half_gap, 14.0)) * ramp(-across, 1.0);
        let lip = ramp(across - half_gap, 1.0) * (1.0 - ramp(across - half_gap - 9.0, 2.0));
        let solid = mix(shaded, 3300.0, lip);
        let gasket = 260.0 * (1.0 - ramp(across.abs() - 2.0, 2.0));
        mix(420.0 + gasket, solid, ramp(across.abs() - half_gap, 2.0))
    }

    /// Half of what red has more than green: warm concrete, and rust on the bolt.
    fn tint(&self, x: f64, y: f64) -> f64 {
        let rust = 160.0 * (1.0 - ramp(from_bolt(x, y) - 22.0, 3.0));
        self.code(x, y) / 40.0 + rust
    }

    /// Slow changes of brightness, bilinear on the lattice.
    fn blotch(&self, x: f64, y: f64) -> f64 {
        let (column, row) = ((x / BLOTCH) as usize, (y / BLOTCH) as usize);
        let (along, down) = (x / BLOTCH - column as f64, y / BLOTCH - row as f64);
        let at = |c: usize, r: usize| self.blotches[r][c] as f64;
        let upper = mix(at(column, row), at(column + 1, row), along);
        let lower = mix(at(column, row + 1), at(column + 1, row + 1), along);
        mix(upper, lower, down)
    }
}

/// The distance below the middle of the gap, and half of the gap's width there.
fn joint(x: f64, y: f64) -> (f64, f64) {
    (y - 205.0 - 0.05 * x, 8.0 + 0.01 * x)
}

/// The distance from the middle of the bolt.
fn from_bolt(x: f64, y: f64) -> f64 {
    ((x - 470.0) * (x - 470.0) + (y - 355.0) * (y - 355.0)).sqrt()
}

/// The bolt pocket: a dark hole with a lit rim below and a shaded one above, the bolt's head in it.
fn pocket(plate: f64, x: f64, y: f64) -> f64 {
    let distance = from_bolt(x, y);
    let light = 500.0 * (y - 355.0) / distance.max(50.0);
    let rim = plate + light * (1.0 - ramp(distance - 64.0, 3.0));
    let hole = mix(600.0, rim, ramp(distance - 52.0, 3.0));
    mix(1700.0 - 2.0 * light, hole, ramp(distance - 24.0, 3.0))
}

/// The survey mark: a white disc with a black point.
fn mark(plate: f64, x: f64, y: f64) -> f64 {
    let distance = ((x - 130.0) * (x - 130.0) + (y - 95.0) * (y - 95.0)).sqrt();
    let disc = mix(3700.0, plate, ramp(distance - 20.0, 2.0));
    mix(500.0, disc, ramp(distance - 5.0, 2.0))
}
