//! The yardstick of the draws: the same ones by plain loops, which call the interpreter of bench/exec.

use std::fs;
use std::time::Instant;

#[path = "../exec/interpreter.rs"]
#[allow(dead_code)]
mod interpreter;
use interpreter::{Ended, Given, Module, Prepared, read};

const ROUNDS: u32 = 5;
const MAX_SIDE: u32 = 256;
const GUARD_BAND: i64 = 1 << 20;
const XOR: u8 = 6;

struct Scene {
    name: &'static str,
    points: bool,
    side: u32,
    samples: usize,
    mask: u32,
    compare: Option<u8>,
    /// Width and height of the scissor, which wanders where it is smaller than a target may be.
    scissor: u32,
    corners: Vec<u32>,
    vertices: u32,
    draws: u32,
}

struct Targets {
    colour: Vec<u32>,
    depth: Vec<u32>,
}

struct Draw<'a> {
    scene: &'a Scene,
    scissor: [u32; 4],
    vertex: Prepared<'a>,
    fragment: Prepared<'a>,
    uniform: &'a [u32],
    pixels: u64,
}

/// Counts of a round.
#[derive(Default)]
struct Counts {
    nanos: u128,
    vertices: u64,
    pixels: u64,
    sum: u64,
}

fn passes(compare: u8, new: i32, old: i32) -> bool {
    match compare {
        0 => false,
        1 => new < old,
        2 => new == old,
        3 => new <= old,
        4 => new > old,
        5 => new != old,
        6 => new >= old,
        _ => true,
    }
}

fn logic(op: u8, s: u32, d: u32) -> u32 {
    match op {
        0 => 0,
        1 => s & d,
        3 => s,
        5 => d,
        XOR => s ^ d,
        7 => s | d,
        10 => !d,
        _ => u32::MAX,
    }
}

fn edge(p: (i64, i64), q: (i64, i64), at: (i64, i64)) -> bool {
    let value = (q.0 - p.0) * (at.1 - p.1) - (q.1 - p.1) * (at.0 - p.0);
    value > 0 || value == 0 && (q.1 < p.1 || q.1 == p.1 && q.0 > p.0)
}

impl Draw<'_> {
    fn corner(&mut self, index: u32) -> Ended {
        let mut given = Given { vertex_index: index, ..Given::default() };
        for k in 0..4 {
            given.slots[0][k] = self.scene.corners.get(4 * index as usize + k).copied().unwrap_or(0);
        }
        let ended = self.vertex.run(&given, &[]);
        ended
    }

    fn shade(&mut self, x: u32, y: u32, first: &Ended, front: bool, targets: &mut Targets) {
        let given = Given { slots: first.slots, frag_coord: [x, y, first.position[2], 0], front, ..Given::default() };
        let ended = self.fragment.run(&given, self.uniform);
        self.pixels += 1;
        if ended.kind != 0 || x >= self.scene.side || y >= self.scene.side {
            return;
        }
        let pixel = (y * self.scene.side + x) as usize * self.scene.samples;
        for sample in 0..self.scene.samples {
            if self.scene.mask >> sample & 1 == 0 {
                continue;
            }
            let at = pixel + sample;
            if let Some(compare) = self.scene.compare {
                if !passes(compare, first.position[2] as i32, targets.depth[at] as i32) {
                    continue;
                }
                targets.depth[at] = first.position[2];
            }
            targets.colour[at] = logic(XOR, ended.slots[0][0], targets.colour[at]);
        }
    }

    fn point(&mut self, first: &Ended, targets: &mut Targets) {
        let (x, y) = (first.position[0] as i32 >> 8, first.position[1] as i32 >> 8);
        let [left, upper, width, height] = self.scissor.map(|side| side as i32);
        if left <= x && x < left + width && upper <= y && y < upper + height {
            self.shade(x as u32, y as u32, first, true, targets);
        }
    }

    fn triangle(&mut self, corners: &[Ended], targets: &mut Targets) {
        let at = |k: usize| (i64::from(corners[k].position[0] as i32), i64::from(corners[k].position[1] as i32));
        let (a, mut b, mut c) = (at(0), at(1), at(2));
        let area = (b.0 - a.0) * (c.1 - a.1) - (b.1 - a.1) * (c.0 - a.0);
        if area == 0 {
            return;
        }
        if area < 0 {
            (b, c) = (c, b);
        }
        let [left, upper, width, height] = self.scissor.map(i64::from);
        let from_x = left.max(a.0.min(b.0).min(c.0) >> 8);
        let to_x = (left + width).min((a.0.max(b.0).max(c.0) >> 8) + 1);
        let from_y = upper.max(a.1.min(b.1).min(c.1) >> 8);
        let to_y = (upper + height).min((a.1.max(b.1).max(c.1) >> 8) + 1);
        for y in from_y..to_y {
            for x in from_x..to_x {
                let centre = (256 * x + 128, 256 * y + 128);
                if edge(a, b, centre) && edge(b, c, centre) && edge(c, a, centre) {
                    self.shade(x as u32, y as u32, &corners[0], area > 0, targets);
                }
            }
        }
    }

    fn run(&mut self, targets: &mut Targets) {
        let size = if self.scene.points { 1 } else { 3 };
        for primitive in 0..self.scene.vertices / size {
            let corners: Vec<Ended> = (0..size).map(|k| self.corner(size * primitive + k)).collect();
            let is_in = |word: u32| (-GUARD_BAND..=GUARD_BAND).contains(&i64::from(word as i32));
            if corners.iter().any(|c| c.kind == 2 || !is_in(c.position[0]) || !is_in(c.position[1])) {
                continue;
            }
            if self.scene.points { self.point(&corners[0], targets) } else { self.triangle(&corners, targets) }
        }
    }
}

/// A round of the scene's draws, one after the other on the same targets.
fn round(scene: &Scene, vertex: &Module, fragment: &Module) -> Counts {
    let mut counts = Counts::default();
    let mut chance = 1u64;
    let size = (scene.side * scene.side) as usize * scene.samples;
    let mut targets = Targets { colour: vec![0; size], depth: vec![i32::MAX as u32; size] };
    for number in 0..scene.draws {
        chance = chance.wrapping_mul(6_364_136_223_846_793_005).wrapping_add(1_442_695_040_888_963_407);
        let place = chance >> 33;
        let free = MAX_SIDE - scene.scissor;
        let (x, y) = (((place / 8 % 32) as u32).min(free), ((place / 256 % 32) as u32).min(free));
        let start = Instant::now();
        let mut draw = Draw {
            scene,
            scissor: [x, y, scene.scissor, scene.scissor],
            vertex: Prepared::new(vertex, &[]),
            fragment: Prepared::new(fragment, &[(0, number / 4 % 6 + 1)]),
            uniform: &[100],
            pixels: 0,
        };
        draw.run(&mut targets);
        counts.nanos += start.elapsed().as_nanos();
        counts.vertices += u64::from(scene.vertices);
        counts.pixels += draw.pixels;
    }
    counts.sum = targets.colour.iter().fold(0, |sum: u64, word| sum.wrapping_mul(31).wrapping_add(u64::from(*word)));
    counts
}

fn time_scene(scene: &Scene) {
    let (vertex, fragment) = (read(&words("vertex")), read(&words("fragment")));
    let best = (0..ROUNDS).map(|_| round(scene, &vertex, &fragment)).min_by_key(|counts| counts.nanos).unwrap_or_default();
    let Counts { nanos, vertices, pixels, sum } = best;
    println!("{}\t{nanos}\t{vertices}\t{pixels}\t{sum}", scene.name);
}

fn words(name: &str) -> Vec<u32> {
    fs::read(name).unwrap().chunks_exact(4).map(|b| u32::from_le_bytes([b[0], b[1], b[2], b[3]])).collect()
}

fn main() {
    let small = Scene {
        name: "triangles",
        points: false,
        side: 64,
        samples: 1,
        mask: 1,
        compare: Some(3),
        scissor: 32,
        corners: words("triangles"),
        vertices: 3,
        draws: 4_096,
    };
    let large = Scene { name: "samples", side: 256, samples: 4, mask: 15, scissor: 256, corners: words("samples"), draws: 12, ..small };
    let points = Scene {
        name: "points",
        points: true,
        side: 256,
        compare: None,
        scissor: 256,
        corners: words("points"),
        vertices: 16_384,
        draws: 48,
        ..small
    };
    for scene in [&small, &large, &points] {
        time_scene(scene);
    }
}
