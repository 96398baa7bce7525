//! Batches and runs to compare the order check on: a fixed sweep along every
//! rule, and random runs that follow the scoreboard and then break one rule.

use super::batch::{self, CHIPS};
use super::bytes;
use crate::batch::{LIMIT, RECORD};
use crate::order::{RUNNING, WAITING};
use crate::random::Random;

mod scene;

pub use scene::{field, field_with_gaps, passes, picture, Layout, Object, Scene, Vfe};
use scene::{Follower, Habit};

/// What is lent to both entries.
#[derive(Clone)]
pub struct Case {
    pub batch: batch::Case,
    pub run: Vec<u32>,
    /// Bytes after the run's last whole dword, for the byte entry.
    pub run_tail: Vec<u8>,
    /// Bytes lent for states.
    pub states: usize,
}

impl Case {
    pub fn run_bytes(&self) -> Vec<u8> {
        [bytes(&self.run), self.run_tail.clone()].concat()
    }

    /// Exactly the room that the scene needs, on its chip.
    pub fn new(scene: &Scene, run: Vec<u32>) -> Self {
        let (batch, commands, rows) = scene.batch();
        Case {
            batch: batch::Case {
                chip: scene.chip(),
                batch,
                tail: Vec::new(),
                capacity: rows,
                records: RECORD * commands,
                records_tail: 0,
            },
            run,
            run_tail: Vec::new(),
            states: scene.objects(),
        }
    }
}

/// One random case; the stream decides which sort.
pub fn random_case(random: &mut Random) -> Case {
    match random.below(2000) {
        0 => {
            let case = broken_picture(random);
            lend(random, case)
        }
        1..=5 => {
            let (scene, run) = long_run(random);
            lend(random, Case::new(&scene, run))
        }
        6..=1699 => {
            let scene = any_scene(random);
            let run = any_run(random, &scene);
            lend(random, Case::new(&scene, run))
        }
        _ => any_batch(random),
    }
}

/// A batch of any sort, refused ones included, with events that may fit it.
pub(super) fn any_batch(random: &mut Random) -> Case {
    let batch = batch::random_case(random);
    let events = random.below(30);
    let objects = random.pick(&[1, 3, 30]);
    let run = junk_run(random, objects, events);
    let few = random.below(40);
    let odd = random.pick(&[0, 0, 0, 0, 1, 2, 3]);
    Case {
        batch,
        run,
        run_tail: random.bytes(odd),
        states: random.pick(&[0, 1, few, LIMIT, LIMIT, LIMIT]),
    }
}

/// Buffers too short, exact or longer, odd bytes, and at times another chip.
fn lend(random: &mut Random, mut case: Case) -> Case {
    case.batch.chip = batch::any_chip(random, case.batch.chip);
    let exact = case.states;
    case.states = match random.below(24) {
        0 => exact.saturating_sub(1),
        1 => random.below(exact + 1),
        2 => 0,
        3..=12 => exact + random.between(1, 40),
        _ => exact,
    };
    let exact = case.batch.records;
    case.batch.records = match random.below(24) {
        0 => exact - 1,
        1 => random.below(exact),
        2..=11 => exact + random.below(40),
        _ => exact,
    };
    case.batch.records_tail = random.below(4);
    if random.one_in(30) {
        case.batch.capacity -= 1;
    }
    if random.one_in(24) {
        let odd = random.between(1, 3);
        case.batch.tail = random.bytes(odd);
    }
    if random.one_in(16) {
        let odd = random.between(1, 3);
        case.run_tail = random.bytes(odd);
    }
    case
}

fn any_run(random: &mut Random, scene: &Scene) -> Vec<u32> {
    if random.one_in(12) {
        let events = random.below(2 * scene.objects() + 8);
        return junk_run(random, scene.objects(), events);
    }
    let habit = Habit {
        starts: random.between(1, 8),
        any: random.one_in(2),
    };
    let whole = 2 * scene.objects();
    let some = random.below(whole + 1);
    let events = random.pick(&[0, some, some, some, some, whole, whole]);
    let mut follower = Follower::new(scene);
    follower.follow(random, habit, events);
    // 20 stands for none.
    let number = random.pick(&[20, 21, 22, 23, 24, 24, 25, 25, 25, 25, 25]);
    if events == whole && number > 23 {
        // Nobody is left to wait for, so the run begins anew.
        follower = Follower::new(scene);
    }
    // Not every moment offers such an event.
    for _ in 0..8 {
        if let Some(event) = follower.refused_event(random, number) {
            follower.run.push(event);
            // Nothing after the bad event may be heeded.
            let after = random.below(6);
            let after = junk_run(random, scene.objects(), after);
            follower.run.extend(after);
            break;
        }
        if number > 23 {
            follower.follow(random, habit, 1 + scene.objects() / 6);
        }
    }
    follower.run
}

/// Many objects, of which some run on while later ones come and go, so that starts look
/// past long stretches of finished ones and of other commands; at times a bad event at
/// the end.
fn long_run(random: &mut Random) -> (Scene, Vec<u32>) {
    let objects = random.between(40, 300);
    let side = random.pick(&[6, 40, 500]);
    let mut scene = Scene::new(random.pick(&CHIPS));
    let vfe = any_vfe(random);
    scene.vfe(random, vfe);
    for _ in 0..objects {
        if random.one_in(60) {
            change_vfe(random, &mut scene);
        }
        for _ in 0..random.pick(&[0, 0, 0, 1, 20]) {
            scene.filler(random);
        }
        let (x, y) = (random.below(side) as i32, random.below(side) as i32);
        scene.object(random, block(x, y), 0);
    }
    // Every so many objects, one never finishes.
    let slow = random.between(2, 60);
    let mut states = vec![WAITING; objects];
    let mut run = Vec::new();
    let mut first = 0;
    for _ in 0..6 * objects {
        while first < objects && states[first] != WAITING {
            first += 1;
        }
        // About where the run has come to.
        let object = (first + random.below(12))
            .saturating_sub(6)
            .min(objects - 1);
        let runs = states[object] == RUNNING;
        let event = 2 * object as u32 + u32::from(runs);
        match scene.refusal(&states, event) {
            None if runs && object.is_multiple_of(slow) => {}
            None => {
                states[object] += 1;
                run.push(event);
            }
            Some(_) if random.one_in(200) => {
                run.push(event);
                break;
            }
            Some(_) => {}
        }
    }
    (scene, run)
}

/// Events that may or may not hit an object.
fn junk_run(random: &mut Random, objects: usize, events: usize) -> Vec<u32> {
    let near = 2 * objects + 3;
    let word = |random: &mut Random| match random.below(24) {
        0 => random.word(),
        1 => random.below(near) as u32 | 1 << 31,
        _ => random.below(near) as u32,
    };
    (0..events).map(|_| word(random)).collect()
}

/// Where the objects stand.
#[derive(Clone, Copy)]
enum Ground {
    /// Close together, from this corner on.
    Patch { x: i32, y: i32, side: i32 },
    /// In the first and last two columns and rows: what a sum in nine bits would join.
    Edges,
}

fn any_scene(random: &mut Random) -> Scene {
    let side = random.between(1, 6) as i32;
    let far = 512 - side;
    let middle = random.below(505) as i32;
    let ground = match random.below(6) {
        0 | 1 => Ground::Edges,
        _ => Ground::Patch {
            x: random.pick(&[0, 0, far, middle]),
            y: random.pick(&[0, 0, far, middle]),
            side,
        },
    };
    let colours = random.pick(&[1, 1, 1, 2, 3]);
    let first_colour = random.below(14) as u32;
    let objects = match random.below(40) {
        0 => random.between(50, 300),
        1..=12 => random.between(10, 40),
        _ => random.between(1, 10),
    };
    let inline = random.pick(&[0, 0, 1, 4]);
    let mut scene = Scene::new(random.pick(&CHIPS));
    for _ in 0..random.pick(&[0, 0, 0, 1, 3]) {
        scene.filler(random);
    }
    let vfe = any_vfe(random);
    scene.vfe(random, vfe);
    let change = random.pick(&[3, 10, 1000]);
    while scene.objects() < objects {
        if random.one_in(change) {
            change_vfe(random, &mut scene);
        }
        if random.one_in(6) {
            scene.filler(random);
        }
        let (x, y) = match ground {
            Ground::Patch { x, y, side } => (
                x + random.below(side as usize) as i32,
                y + random.below(side as usize) as i32,
            ),
            Ground::Edges => (
                random.pick(&[0, 1, 510, 511]),
                random.pick(&[0, 1, 510, 511]),
            ),
        };
        let object = Object {
            own_use: !random.one_in(8),
            x,
            y,
            colour: first_colour + random.below(colours) as u32,
            mask: any_mask(random),
        };
        let inline = random.below(inline + 1);
        scene.object(random, object, inline);
    }
    scene
}

/// Another VFE, or one that changes all of the last one's scoreboard, a part or nothing.
fn change_vfe(random: &mut Random, scene: &mut Scene) {
    let any = any_vfe(random);
    if random.one_in(3) {
        return scene.vfe(random, any);
    }
    let mut vfe = scene.last_vfe();
    match random.below(8) {
        0 => vfe.enable = !vfe.enable,
        1 => vfe.stalling = !vfe.stalling,
        2 => vfe.mask = any.mask,
        3 => vfe.deltas = any.deltas,
        4 => vfe.deltas[random.below(8)] = any.deltas[0],
        5 => {}
        _ => vfe = any,
    }
    let flushes = random.pick(&[&[6][..], &[6], &[1], &[6, 0], &[0, 6], &[6, 1]]);
    scene.scoreboard(random, flushes, vfe);
}

fn any_vfe(random: &mut Random) -> Vfe {
    let reach = random.pick(&[1, 1, 1, 2, 8]);
    let mut deltas = [(0, 0); 8];
    for delta in &mut deltas {
        let mut part = || match random.below(12) {
            0 => random.pick(&[-8, 7]),
            _ => (random.between(0, 2 * reach) as i32 - reach as i32).min(7),
        };
        *delta = (part(), part());
    }
    if random.one_in(3) {
        // The same delta under two numbers.
        deltas[random.below(8)] = deltas[random.below(8)];
    }
    Vfe {
        enable: !random.one_in(8),
        stalling: random.one_in(2),
        mask: any_mask(random),
        deltas,
    }
}

fn any_mask(random: &mut Random) -> u8 {
    let any = random.word() as u8;
    let single = 1 << random.below(8);
    random.pick(&[255, 255, 255, 255, 255, any, any, single, !single, 0])
}

/// Blocks across and down in the picture.
pub const PICTURE: (i32, i32) = (45, 36);

/// A picture's run, in one pass or in three, with one event removed, doubled, swapped with the next or changed.
fn broken_picture(random: &mut Random) -> Case {
    let layout = random.pick(&[Layout::Raster, Layout::Waves]);
    let stalling = random.one_in(2);
    let chip = random.pick(&CHIPS);
    let (scene, mut run) = match random.one_in(2) {
        true => picture(chip, PICTURE, layout, stalling),
        false => passes(chip, (PICTURE.0, PICTURE.1 / 3), layout, stalling),
    };
    let at = random.below(run.len() - 1);
    match random.below(5) {
        0 => run.swap(at, at + 1),
        1 => {
            run.remove(at);
        }
        2 => run.insert(at, run[at]),
        3 => run[at] = random.below(run.len() + 2) as u32,
        _ => run.truncate(at),
    }
    Case::new(&scene, run)
}

/// The fixed cases, on both chips. The seed fills fields that no rule looks at, and
/// chooses buffer tails and the runs over refused batches.
pub fn sweep(seed: u64) -> Vec<Case> {
    let mut sweep = Sweep {
        chip: 0,
        random: Random::new(seed),
        cases: Vec::new(),
    };
    for chip in CHIPS {
        sweep.chip = chip;
        sweep.every_delta();
        sweep.masks();
        sweep.users();
        sweep.scoreboards();
        sweep.second_vfes();
        sweep.crowd();
        sweep.short_runs();
        sweep.many_commands();
        sweep.buffers();
        sweep.pictures();
    }
    sweep.refused_batches(seed);
    sweep.cases
}

struct Sweep {
    chip: u32,
    random: Random,
    cases: Vec<Case>,
}

const NO_DELTAS: [(i32, i32); 8] = [(0, 0); 8];

/// Not stalling, every delta allowed.
fn free_vfe(deltas: [(i32, i32); 8]) -> Vfe {
    Vfe {
        enable: true,
        stalling: false,
        mask: 255,
        deltas,
    }
}

/// Every delta in play, colour 5.
fn block(x: i32, y: i32) -> Object {
    Object {
        own_use: true,
        x,
        y,
        colour: 5,
        mask: 255,
    }
}

impl Sweep {
    fn scene(&mut self, vfe: Vfe, objects: &[Object]) -> Scene {
        let mut scene = Scene::new(self.chip);
        scene.vfe(&mut self.random, vfe);
        for &object in objects {
            scene.object(&mut self.random, object, 0);
        }
        scene
    }

    fn add(&mut self, scene: &Scene, run: &[u32]) {
        let mut case = Case::new(scene, run.to_vec());
        case.batch.records += self.random.below(20);
        case.batch.records_tail = self.random.below(4);
        case.states += self.random.below(3);
        self.cases.push(case);
    }

    /// Every delta at the corners and in the middle: the neighbour stands at the
    /// sum, at the sum in nine bits, or where the nibbles taken as 0 to 15 lead.
    fn every_delta(&mut self) {
        for (dx, dy) in (-8..8).flat_map(|dx| (-8..8).map(move |dy| (dx, dy))) {
            for (x, y) in [(0, 0), (0, 511), (511, 0), (511, 511), (256, 256), (7, 504)] {
                let mut places = vec![
                    ((x + dx) & 511, (y + dy) & 511),
                    (x + (dx & 15), y + (dy & 15)),
                    (x + dx, y + (dy & 15)),
                    (x + (dx & 15), y + dy),
                    (x - dx, y - dy),
                    (x + dy, y + dx),
                ];
                places.retain(|(x, y)| (0..512).contains(x) && (0..512).contains(y));
                places.sort_unstable();
                places.dedup();
                for (other_x, other_y) in places {
                    let at = self.random.below(8);
                    let mut deltas = [(dx, dy); 8];
                    deltas[..at].fill((if dx == 7 { -8 } else { dx + 1 }, dy));
                    let objects = [block(other_x, other_y), block(x, y)];
                    let scene = self.scene(free_vfe(deltas), &objects);
                    self.add(&scene, &[2, 0, 3, 1]);
                }
            }
        }
    }

    /// Single bits and their complements in both masks; the neighbour stands at
    /// one delta, at several or at all.
    fn masks(&mut self) {
        let singles = (0..8).map(|bit| 1 << bit);
        let masks: Vec<u8> = singles
            .flat_map(|bit: u8| [bit, !bit])
            .chain([0, 255])
            .collect();
        for &vfe_mask in &masks {
            for &own_mask in &masks {
                let at = self.random.below(8);
                for hits in [255, 1 << at, 0b1010_0000, 0b0001_0010, 0] {
                    let mut vfe = free_vfe(NO_DELTAS);
                    vfe.mask = vfe_mask;
                    for (delta, place) in vfe.deltas.iter_mut().enumerate() {
                        *place = if hits >> delta & 1 == 1 {
                            (-1, 1)
                        } else {
                            (-1, -1)
                        };
                    }
                    let mut own = block(10, 10);
                    own.mask = own_mask;
                    let scene = self.scene(vfe, &[block(9, 11), own]);
                    self.add(&scene, &[0, 2, 1, 3]);
                }
            }
        }
    }

    /// Own bit, enable, type and colour of both objects, each under its own VFE
    /// or both under one, with the first waiting, running or finished.
    fn users(&mut self) {
        for flags in 0..256 {
            let bit = |at: u32| flags >> at & 1 == 1;
            let vfe = |enable, stalling| Vfe {
                enable,
                stalling,
                ..free_vfe([(-1, 0); 8])
            };
            let mut first = block(9, 10);
            first.own_use = bit(0);
            let mut second = block(10, 10);
            second.own_use = bit(1);
            second.colour = if bit(2) { 5 } else { 4 };
            let mut scene = self.scene(vfe(bit(3), bit(4)), &[first]);
            if bit(5) {
                // The deltas of the first one's VFE are not the second's.
                let mut other = vfe(bit(6), bit(7));
                other.deltas[0] = (0, -1);
                scene.vfe(&mut self.random, other);
            }
            scene.object(&mut self.random, second, 0);
            for run in [&[2][..], &[0, 2], &[0, 1, 2], &[2, 0], &[2, 3, 0, 1]] {
                self.add(&scene, run);
            }
        }
    }

    /// Three objects in a row, each at a delta of the next, under a VFE each: the second
    /// changes the scoreboard alone, the third changes it back. Every choice of enable,
    /// type, mask and deltas for both, after a state flush and after MI_FLUSH.
    fn scoreboards(&mut self) {
        for flags in 0..256 {
            let vfe = |flags: u32, delta: usize| {
                let bit = |at: u32| flags >> at & 1 == 1;
                let mut vfe = free_vfe([(0, -1); 8]);
                (vfe.enable, vfe.stalling) = (bit(0), bit(1));
                vfe.mask = if bit(2) { 255 } else { !(1 << delta) };
                vfe.deltas[delta] = if bit(3) { (-1, 0) } else { (0, -1) };
                vfe
            };
            let vfes = [vfe(flags & 15, 2), vfe(flags >> 4, 5)];
            for flush in [6, 1] {
                let mut scene = self.scene(vfes[0], &[block(9, 10)]);
                scene.scoreboard(&mut self.random, &[flush], vfes[1]);
                scene.object(&mut self.random, block(10, 10), 0);
                scene.scoreboard(&mut self.random, &[flush], vfes[0]);
                scene.object(&mut self.random, block(11, 10), 0);
                for run in [
                    &[2][..],
                    &[0, 2],
                    &[0, 1, 2],
                    &[4],
                    &[0, 4],
                    &[2, 4],
                    &[0, 2, 4],
                    &[0, 1, 2, 4],
                    &[0, 1, 2, 3, 4, 5],
                ] {
                    self.add(&scene, run);
                }
            }
        }
    }

    /// Two objects under equal VFEs with a state flush between, and each bit of the second
    /// the other way.
    fn second_vfes(&mut self) {
        let mut vfe = free_vfe([(-1, 0); 8]);
        vfe.mask = 0b100;
        let mut scene = self.scene(vfe, &[block(9, 10)]);
        let (batch, ..) = scene.batch();
        // END goes, the state flush comes.
        let place = batch.len() + 1;
        scene.scoreboard(&mut self.random, &[6], vfe);
        scene.object(&mut self.random, block(10, 10), 0);
        for run in [&[0, 2][..], &[0, 1, 2, 3]] {
            self.add(&scene, run);
            for (at, bit) in (place..place + 8).flat_map(|at| (0..32).map(move |bit| (at, bit))) {
                self.add(&scene, run);
                let case = self.cases.last_mut().expect("just added");
                case.batch.batch[at] ^= 1 << bit;
            }
        }
    }

    /// Many objects at one position and around it: the lowest unfinished one is
    /// named, and nobody waits for itself or for a later one.
    fn crowd(&mut self) {
        let deltas = [
            (0, 0),
            (-1, 0),
            (0, 0),
            (1, 0),
            (-1, 0),
            (7, 7),
            (-8, -8),
            (0, 1),
        ];
        let places = [
            (8, 8),
            (9, 8),
            (8, 8),
            (7, 8),
            (8, 8),
            (15, 15),
            (0, 0),
            (8, 9),
        ];
        let objects = places.map(|(x, y)| block(x, y));
        for stalling in [false, true] {
            let mut vfe = free_vfe(deltas);
            vfe.stalling = stalling;
            let scene = self.scene(vfe, &objects);
            for last in 0..8 {
                // Every choice of finished ones below the last; the others run or wait.
                for finished in 0..1 << last {
                    for started in [0, 255] {
                        let others = (0..last).filter(|at| (finished | started) >> at & 1 == 1);
                        let mut run = Vec::new();
                        for at in others {
                            run.push(2 * at);
                            if finished >> at & 1 == 1 {
                                run.push(2 * at + 1);
                            }
                        }
                        run.push(2 * last);
                        self.add(&scene, &run);
                    }
                }
            }
        }
    }

    /// Every run of up to five events over two objects and one that does not exist.
    fn short_runs(&mut self) {
        let pair = [block(1, 1), block(0, 1)];
        let mut stalling = free_vfe([(1, 0); 8]);
        stalling.stalling = true;
        let apart = Vfe {
            enable: false,
            ..stalling
        };
        let scenes = [
            self.scene(free_vfe([(1, 0); 8]), &pair),
            self.scene(stalling, &pair),
            self.scene(apart, &pair),
        ];
        for scene in &scenes {
            for length in 0..=5 {
                for number in 0..6_u32.pow(length) {
                    let digits = (0..length).map(|place| number / 6_u32.pow(place) % 6);
                    let run: Vec<u32> = digits.collect();
                    self.add(scene, &run);
                }
            }
            for object in [0x4000_0000, 0x7fff_ffff, 2, 3, 512, 65_536] {
                for event in [2 * object, 2 * object + 1] {
                    self.add(scene, &[0, 1, event]);
                }
            }
        }
        let empty = self.scene(free_vfe(NO_DELTAS), &[]);
        for run in [&[][..], &[0], &[1], &[u32::MAX]] {
            self.add(&empty, run);
        }
    }

    /// Objects far apart in the batch, and as many as it holds.
    fn many_commands(&mut self) {
        for gap in [0, 1, 2, 15, 16, 17, 100, 1500] {
            let mut deltas = [(1, 1); 8];
            deltas[..3].copy_from_slice(&[(0, -1), (0, 1), (0, 0)]);
            let mut scene = self.scene(free_vfe(deltas), &[]);
            for object in 0..9 {
                for _ in 0..gap {
                    scene.filler(&mut self.random);
                }
                scene.object(&mut self.random, block(3, object % 3), object as usize);
            }
            for run in [
                &[0, 2, 4][..],
                &[0, 1, 2, 3, 4, 5, 16],
                &[16],
                &[6, 0, 8],
                &[0, 1, 2, 3, 6, 7, 4, 5, 8, 9, 16],
                &[0, 1, 2, 3, 4, 5, 6, 7, 8, 9, 10, 11, 12, 13, 14, 15, 16, 17],
            ] {
                self.add(&scene, run);
            }
        }
        let most = (LIMIT - 13) / 6;
        for stalling in [false, true] {
            let mut vfe = free_vfe([(-1, 0); 8]);
            vfe.stalling = stalling;
            let objects: Vec<Object> = (0..most).map(|_| block(0, 0)).collect();
            let scene = self.scene(vfe, &objects);
            let events = 2 * most as u32;
            let starts = (0..events).step_by(2);
            let finishes = (1..events).step_by(2);
            let upward: Vec<u32> = starts.clone().chain(finishes.clone()).collect();
            let downward: Vec<u32> = starts.rev().chain(finishes.rev()).collect();
            // One event too many for each.
            for run in [upward, downward] {
                let run: Vec<u32> = run.into_iter().chain([events - 1]).collect();
                self.add(&scene, &run);
            }
        }
    }

    /// Every length of the state buffer, records too short, odd bytes, numbers of no
    /// chip, and which of them comes first (rules 10, 17, 18 and 20).
    fn buffers(&mut self) {
        let objects: Vec<Object> = (0..20).map(|x| block(x, 0)).collect();
        let scene = self.scene(free_vfe([(-1, 0); 8]), &objects);
        let (_, commands, _) = scene.batch();
        for states in 0..=objects.len() + 20 {
            for run in [&[][..], &[0, 2], &[38, 39], &[40]] {
                for records in [RECORD * commands, RECORD * commands - 1, 0] {
                    let mut case = Case::new(&scene, run.to_vec());
                    case.states = states;
                    case.batch.records = records;
                    self.cases.push(case);
                }
            }
        }
        for odd in 0..16 {
            for fault in 0..9 {
                let mut case = Case::new(&scene, vec![0, 3, 9]);
                case.batch.tail = self.random.bytes(odd % 4);
                case.run_tail = self.random.bytes(odd / 4);
                match fault % 5 {
                    1 => case.batch.batch.resize(LIMIT + 1, 0),
                    2 => case.batch.batch.truncate(8),
                    3 => case.batch.records = 7,
                    4 => case.states = 19,
                    _ => {}
                }
                if fault > 4 {
                    case.batch.chip = batch::NO_CHIPS[fault - 5];
                }
                self.cases.push(case);
            }
        }
    }

    /// The picture in both layouts and both types, and one in passes: its whole run, a
    /// part of it, and runs in which a block is still awaited.
    fn pictures(&mut self) {
        for layout in [Layout::Raster, Layout::Waves] {
            for stalling in [false, true] {
                let whole = picture(self.chip, PICTURE, layout, stalling);
                self.picture(whole, [1, 44, 45, 46, 700, 1619]);
                let in_passes = passes(self.chip, (9, 8), layout, stalling);
                self.picture(in_passes, [72, 73, 80, 144, 150, 215]);
            }
        }
    }

    fn picture(&mut self, (scene, run): (Scene, Vec<u32>), blocks: [u32; 6]) {
        self.add(&scene, &run);
        self.add(&scene, &run[..run.len() / 3]);
        for block in blocks {
            // The run up to the block's start, but for one finish before it.
            let start = run.iter().position(|&event| event == 2 * block);
            let before = &run[..start.expect("every block starts")];
            let finishes: Vec<usize> = (0..before.len())
                .filter(|&at| before[at] % 2 == 1)
                .collect();
            for back in [1, 2, 20, 44, 45, 46] {
                let mut run = before.to_vec();
                if let Some(at) = finishes.len().checked_sub(back) {
                    run.remove(finishes[at]);
                }
                run.push(2 * block);
                self.add(&scene, &run);
            }
        }
    }

    /// The batch check's own sweep, thinned out, with runs that may fit.
    fn refused_batches(&mut self, seed: u64) {
        for (index, batch) in batch::sweep(seed).into_iter().enumerate() {
            if index % 5 == 0 {
                let events = self.random.below(4);
                let run = junk_run(&mut self.random, 1, events);
                let odd = self.random.pick(&[0, 0, 0, 0, 0, 0, 1, 2, 3]);
                self.cases.push(Case {
                    batch,
                    run,
                    run_tail: self.random.bytes(odd),
                    states: self.random.pick(&[0, 1, 2, 5]),
                });
            }
        }
    }
}

#[cfg(test)]
mod tests;
