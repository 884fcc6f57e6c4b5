//! The command `largest`: a search for the largest numbers of tiles with selectors up to 4.
//!
//! Synthesis is nearly linear, so a number is largest where each coefficient is as large as can be
//! and has the sign of its influence on that number. The influences are found by setting one
//! coefficient after the other, the best places by adding up the influences' magnitudes. Then
//! single coefficients are changed as long as the number grows.

use crate::oracle;
use crate::ordinary::{hold, GREATEST_SELECTOR};
use crate::ours::Decoder;
use crate::size::Size;
use crate::stages::{self, thousands, Stage, STAGES};
use crate::watch::{Held, Place, Watch};
use crate::whole::{self, Coefficients};
use crate::written;

/// The greatest steps of band 0, up and down.
const STEPS: [i32; 2] = [32_767, -32_768];

/// The greatest coefficients under selector 4, odd ones, then even ones, which E treats otherwise.
const EXTREMES: [i32; 4] = [8_388_599, -8_388_599, 8_388_584, -8_388_584];

/// The widest tile.
pub const WIDEST: usize = 65_520;

/// Columns that stand for the right end of a wider tile.
const END: usize = 192;

/// Best places of a stage that are tried in each tile, and finds of a stage that are improved.
const PLACES: usize = 3;
const IMPROVED: usize = 4;

/// Most rounds through all coefficients of a tile.
const ROUNDS: usize = 4;

/// A number to make large: of an index, at a place of a stage, above or below 0.
#[derive(Debug, Clone, Copy)]
pub struct Goal {
    pub index: usize,
    pub stage: Stage,
    pub place: Place,
    pub below: bool,
}

/// A tile in which the goal's number is large. The coefficients may stand for the right end of a
/// tile that is `before` columns of band 0 wider.
#[derive(Debug, Clone)]
pub struct Find {
    pub goal: Goal,
    pub coefficients: Coefficients,
    pub before: usize,
    pub number: i64,
}

/// A coefficient: group, index, place in its packet.
type Coordinate = (usize, usize, usize);

/// The coefficients that the numbers of an index depend on.
fn coordinates(c: &Coefficients, index: usize) -> Vec<Coordinate> {
    let packets = (0..4).map(|group| (group, index)).chain((index == 0).then_some((4, 0)));
    packets.flat_map(|(g, i)| (0..c.packets[g][i].len()).map(move |at| (g, i, at))).collect()
}

fn at(c: &mut Coefficients, (group, index, at): Coordinate) -> &mut i32 {
    &mut c.packets[group][index][at]
}

fn choices(group: usize) -> &'static [i32] {
    if group == 0 {
        &STEPS
    } else {
        &EXTREMES
    }
}

/// Green with what lies before it, or one of the other planes.
fn synthesize(c: &Coefficients, index: usize, w: &mut impl Watch) {
    match index {
        0 => whole::green(c, w),
        _ => whole::colour(c, index, w),
    };
}

// Places.

/// The sums of the magnitudes of all influences on each number.
struct Reach {
    width: usize,
    rows: usize,
    /// The numbers where all coefficients are 0.
    base: Vec<i64>,
    sums: Vec<i64>,
}

impl Reach {
    fn key(&self, stage: Stage, (row, column): Place) -> usize {
        (stage.0 * self.rows + row) * self.width + column
    }
}

impl Watch for Reach {
    fn number(&mut self, stage: Stage, place: Place, number: i64) {
        if stage.0 >= stages::BAND_0.0 {
            let key = self.key(stage, place);
            self.sums[key] += (number - self.base[key]).abs();
        }
    }
}

/// Sets one coefficient after the other.
fn reach(size: Size, index: usize) -> Reach {
    let (width, rows) = (size.width, size.rows());
    let zeros = vec![0; stages::COUNT * rows * width];
    let mut reach = Reach { width, rows, base: zeros.clone(), sums: zeros.clone() };
    let mut c = Coefficients::new(size);
    synthesize(&c, index, &mut reach);
    reach.base = std::mem::replace(&mut reach.sums, zeros);
    for coordinate in coordinates(&c, index) {
        *at(&mut c, coordinate) = choices(coordinate.0)[0];
        synthesize(&c, index, &mut reach);
        *at(&mut c, coordinate) = 0;
    }
    reach
}

/// The places of each stage that coefficients can make largest; at the end of a wider tile those in
/// the right half.
fn best_places(size: Size, index: usize, before: usize) -> Vec<(Stage, Place)> {
    let reach = reach(size, index);
    let mut best = Vec::new();
    for stage in (stages::BAND_0.0..stages::COUNT).map(Stage) {
        let columns = size.width / 16 * stage.columns();
        let from = if before > 0 { columns / 2 } else { 0 };
        let all = (0..size.rows()).flat_map(|y| (from..columns).map(move |x| (y, x)));
        let mut reached: Vec<(i64, Place)> = all.map(|p| (reach.sums[reach.key(stage, p)], p)).collect();
        reached.retain(|&(sum, _)| sum > STEPS[0] as i64);
        reached.sort_by_key(|&(sum, place)| (-sum, place));
        best.extend(reached.iter().take(PLACES).map(|&(_, place)| (stage, place)));
    }
    best
}

// Signs.

/// The numbers at some places, which stand in the order of their stages.
struct Looked<'a> {
    places: &'a [(Stage, Place)],
    /// The first place of each stage, and the end.
    firsts: [usize; stages::COUNT + 1],
    numbers: Vec<i64>,
}

impl Watch for Looked<'_> {
    fn number(&mut self, stage: Stage, place: Place, number: i64) {
        for i in self.firsts[stage.0]..self.firsts[stage.0 + 1] {
            if self.places[i].1 == place {
                self.numbers[i] = number;
            }
        }
    }
}

/// The numbers at the places.
fn look(c: &Coefficients, index: usize, places: &[(Stage, Place)]) -> Vec<i64> {
    let firsts = std::array::from_fn(|stage| places.partition_point(|p| p.0 .0 < stage));
    let mut looked = Looked { places, firsts, numbers: vec![0; places.len()] };
    synthesize(c, index, &mut looked);
    looked.numbers
}

/// A tile of zeros; at the end of a wider one band 0 comes in from its steps before.
fn start(size: Size, before: usize, below: bool) -> Coefficients {
    let start = STEPS[below as usize] as i64 * before as i64;
    Coefficients { start, ..Coefficients::new(size) }
}

/// For each place two tiles with every coefficient by the sign of its influence: the number there
/// is large above 0 and below 0.
fn by_signs(size: Size, index: usize, before: usize, places: &[(Stage, Place)]) -> Vec<Find> {
    let mut c = Coefficients::new(size);
    let base = look(&c, index, places);
    let mut finds = Vec::new();
    for &(stage, place) in places {
        for below in [false, true] {
            let goal = Goal { index, stage, place, below };
            finds.push(Find { goal, coefficients: start(size, before, below), before, number: 0 });
        }
    }
    for coordinate in coordinates(&c, index) {
        let choices = choices(coordinate.0);
        *at(&mut c, coordinate) = choices[0];
        let found = look(&c, index, places);
        *at(&mut c, coordinate) = 0;
        for (i, find) in finds.iter_mut().enumerate() {
            let influence = found[i / 2] - base[i / 2];
            if influence != 0 {
                *at(&mut find.coefficients, coordinate) =
                    choices[((influence < 0) != find.goal.below) as usize];
            }
        }
    }
    finds.iter_mut().for_each(Find::measure);
    finds
}

impl Find {
    /// The goal's number in the coefficients.
    fn measure(&mut self) {
        self.number = look(&self.coefficients, self.goal.index, &[(self.goal.stage, self.goal.place)])[0];
    }

    fn size(&self) -> Size {
        let size = self.coefficients.size;
        Size { width: size.width + 16 * self.before, ..size }
    }

    /// The goal's place in the whole tile.
    fn place(&self) -> Place {
        let (row, column) = self.goal.place;
        (row, column + self.before * self.goal.stage.columns())
    }

    /// Changes single coefficients as long as the number grows.
    fn improve(&mut self) {
        for _ in 0..ROUNDS {
            let before = self.number;
            for coordinate in coordinates(&self.coefficients, self.goal.index) {
                if *at(&mut self.coefficients, coordinate) != 0 {
                    choices(coordinate.0).iter().for_each(|&choice| self.change(coordinate, choice));
                }
            }
            if self.number == before {
                break;
            }
        }
    }

    /// Sets a coefficient if the number grows by it.
    fn change(&mut self, coordinate: Coordinate, choice: i32) {
        let (kept, number) = (*at(&mut self.coefficients, coordinate), self.number);
        if kept == choice {
            return;
        }
        *at(&mut self.coefficients, coordinate) = choice;
        self.measure();
        let grown = if self.goal.below { self.number < number } else { self.number > number };
        if !grown {
            *at(&mut self.coefficients, coordinate) = kept;
            self.number = number;
        }
    }

    /// The whole tile, with band 0's steps before the coefficients.
    pub fn tile(&self) -> Coefficients {
        let (c, size) = (&self.coefficients, self.size());
        let mut tile = Coefficients::new(size);
        for (group, packets) in tile.packets.iter_mut().enumerate() {
            let (narrow, wide) = (c.size.shape(group).columns, size.shape(group).columns);
            for (from, to) in c.packets[group].iter().zip(packets) {
                for (from, to) in from.chunks(narrow).zip(to.chunks_mut(wide)) {
                    to[wide - narrow..].copy_from_slice(from);
                }
            }
        }
        for row in tile.packets[0][self.goal.index].chunks_mut(size.width / 16) {
            row[..self.before].fill(STEPS[self.goal.below as usize]);
        }
        tile
    }

    /// Codes the tile and holds both decoders and the whole numbers against each other.
    fn hold(&self, decoder: &impl Decoder) -> Result<Held, String> {
        let tile = self.tile();
        let found = look(&tile, self.goal.index, &[(self.goal.stage, self.place())])[0];
        if found != self.number {
            return Err(format!("{found} in the whole tile, {} at its end", self.number));
        }
        let stream = written::coded(&tile, GREATEST_SELECTOR).bytes;
        let original =
            oracle::decode(&stream, [usize::MAX; 4]).map_err(|number| format!("refused with {number}"))?;
        hold(decoder, &stream, &original)
    }

    fn describe(&self) -> String {
        let (size, (row, column)) = (self.size(), self.place());
        let index = ["green", "red", "blue"][self.goal.index];
        format!("{} by {}, {index}, row {row}, column {column}", size.width, size.height())
    }
}

// All tiles.

/// The finds of one tile, for green and red.
fn search(size: Size, before: usize) -> Vec<Find> {
    let of_index = |index| by_signs(size, index, before, &best_places(size, index, before));
    [0, 1].into_iter().flat_map(of_index).collect()
}

/// The best of a stage in tiles of this size, improved; `index` is 0 for green, 1 for red.
pub fn best_of(size: Size, index: usize, stage: Stage, below: bool) -> Option<Find> {
    let mut places = best_places(size, index, 0);
    places.retain(|p| p.0 == stage);
    let mut finds = by_signs(size, index, 0, &places);
    finds.retain(|find| find.goal.below == below);
    best(finds.iter(), 1)
}

/// The best of some finds, after the first few of them have been improved; of equals the earliest.
fn best<'a>(finds: impl Iterator<Item = &'a Find>, improved: usize) -> Option<Find> {
    let mut finds: Vec<&Find> = finds.collect();
    finds.sort_by_key(|find| -find.number.abs());
    let improve = |find: &&Find| {
        let mut find = (*find).clone();
        find.improve();
        find
    };
    let larger = |a: Find, b: Find| if b.number.abs() > a.number.abs() { b } else { a };
    finds.iter().take(improved).map(improve).reduce(larger)
}

/// Tiles of few columns, and the right ends of the widest, both kinds of height.
fn grounds() -> Vec<(Size, usize)> {
    let size = |width, height: usize| Size { width, half: height / 2 };
    let mut all = Vec::new();
    for width in [16, 32, 64] {
        all.extend([16, 18, 32, 34, 64, 66].map(|height| (size(width, height), 0)));
    }
    all.extend([16, 18, 32, 34].map(|height| (size(256, height), 0)));
    all.extend([16, 18, 32, 34, 64, 66].map(|height| (size(END, height), (WIDEST - END) / 16)));
    all
}

/// Stages of which the second table has the largest number in each tile.
const OF_EACH_TILE: [Stage; 4] = [stages::COLOUR, stages::O, stages::FOUR_O, stages::EVEN];

/// Searches all tiles, holds the best, and prints the tables; false if a tile fails.
pub fn run(decoder: &impl Decoder) -> bool {
    let tiles: Vec<Vec<Find>> = grounds().into_iter().map(|(size, before)| search(size, before)).collect();
    let of_stage = |stage: usize, wide: bool| {
        let all = tiles.iter().flatten();
        best(all.filter(|f| f.goal.stage.0 == stage && (f.before > 0) == wide), IMPROVED)
    };
    let of_stages: Vec<Find> =
        (0..stages::COUNT).flat_map(|s| [false, true].map(|wide| of_stage(s, wide))).flatten().collect();
    let of_tile = |finds: &Vec<Find>| {
        OF_EACH_TILE.map(|stage| best(finds.iter().filter(|f| f.goal.stage == stage), 1).expect("a find"))
    };
    let of_tiles: Vec<[Find; 4]> = tiles.iter().map(of_tile).collect();

    let mut all = true;
    let mut largest = [[0; stages::COUNT]; 2];
    for find in of_stages.iter().chain(of_tiles.iter().flatten()) {
        let largest = &mut largest[(find.before > 0) as usize];
        match find.hold(decoder) {
            Ok(held) => *largest = std::array::from_fn(|i| largest[i].max(held.largest[i])),
            Err(what) => {
                println!("{}: {}: {what}", find.goal.stage.name(), find.describe());
                all = false;
            }
        }
    }
    print_magnitudes(&largest);
    print_tiles(&of_tiles);
    print_places(&of_stages);
    all
}

/// The largest magnitudes of the stages, in narrow tiles and in the widest, with their bounds.
fn print_magnitudes([narrow, wide]: &[[i64; stages::COUNT]; 2]) {
    println!("| stage | proved, at most | largest found | in tiles up to 256 columns |");
    println!("|---|---|---|---|");
    for (i, (name, bound)) in STAGES.into_iter().enumerate() {
        let numbers = [bound, wide[i].max(narrow[i]), narrow[i]].map(thousands);
        println!("| {name} | {} |", numbers.join(" | "));
    }
}

/// The largest numbers of each tile.
fn print_tiles(of_tiles: &[[Find; 4]]) {
    println!("\n| tile | {} |", OF_EACH_TILE.map(Stage::name).join(" | "));
    println!("|---|---|---|---|---|");
    for finds in of_tiles {
        let size = finds[0].size();
        let numbers = finds.each_ref().map(|find| thousands(find.number));
        println!("| {} by {} | {} |", size.width, size.height(), numbers.join(" | "));
    }
}

/// Where the largest numbers of the stages stand.
fn print_places(of_stages: &[Find]) {
    println!("\n| stage | number | tile and place |");
    println!("|---|---|---|");
    for find in of_stages {
        println!("| {} | {} | {} |", find.goal.stage.name(), thousands(find.number), find.describe());
    }
}

#[cfg(test)]
mod tests {
    use super::*;
    use crate::ours::mock::Mock;

    /// A find at the right end is the number of the whole tile, and decoders agree on it.
    #[test]
    fn ends_of_wider_tiles() {
        for height in [16, 18] {
            let size = Size { width: 96, half: height / 2 };
            let finds = search(size, 20);
            assert!(finds.iter().all(|find| find.number.signum() == if find.goal.below { -1 } else { 1 }));
            for find in finds.iter().step_by(7) {
                let held = find.hold(&Mock).unwrap();
                assert!(find.number.abs() <= held.largest[find.goal.stage.0]);
            }
        }
    }

    /// The numbers are as large as the influences in all, but for what floors and the steps' last
    /// unit bring, and improving changes no more than that.
    #[test]
    fn no_more_than_the_influences() {
        for (height, index) in [(16, 0), (18, 1), (32, 1), (34, 0)] {
            let size = Size { width: 32, half: height / 2 };
            let reach = reach(size, index);
            let places = best_places(size, index, 0);
            for (i, mut find) in by_signs(size, index, 0, &places).into_iter().enumerate() {
                let signed = find.number.abs();
                if i % 16 == 0 {
                    find.improve();
                }
                let Goal { stage, place, .. } = find.goal;
                let (number, most) = (find.number.abs(), reach.sums[reach.key(stage, place)]);
                assert!((signed..signed + 100).contains(&number), "{:?}: {signed}, {number}", find.goal);
                assert!((number - most).abs() < 100, "{:?}: {number}, {most}", find.goal);
            }
        }
    }
}
