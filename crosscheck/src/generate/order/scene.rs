//! A batch of objects on scoreboards, with the rules of the section "Who waits
//! for whom" in the paper's own words, and runs that follow them.
//!
//! Nothing here is clever: the rules are restated over a plain list of objects,
//! so that runs of any sort can be made, and the second implementation is tested
//! against them as well.

use crate::generate::batch::{flat, rows, Command, Rows};
use crate::order::{Answer, FINISHED, RUNNING, WAITING};
use crate::random::Random;

/// A VFE's scoreboard. Deltas are whole numbers, X first.
#[derive(Clone, Copy)]
pub struct Vfe {
    pub enable: bool,
    pub stalling: bool,
    pub mask: u8,
    pub deltas: [(i32, i32); 8],
}

/// An OBJECT's part in it.
#[derive(Clone, Copy)]
pub struct Object {
    pub own_use: bool,
    pub x: i32,
    pub y: i32,
    pub colour: u32,
    pub mask: u8,
}

/// A batch under construction that its chip accepts, without its END.
#[derive(Clone)]
pub struct Scene {
    chip: u32,
    commands: Vec<Command>,
    vfes: Vec<Vfe>,
    /// Each with the number of its VFE.
    objects: Vec<(Object, usize)>,
}

/// Two's complement in four bits.
fn nibble(delta: i32) -> u32 {
    assert!((-8..8).contains(&delta));
    delta as u32 & 15
}

impl Scene {
    pub fn new(chip: u32) -> Self {
        Scene {
            chip,
            commands: Vec::new(),
            vfes: Vec::new(),
            objects: Vec::new(),
        }
    }

    pub fn chip(&self) -> u32 {
        self.chip
    }

    /// A VFE, with what the order of commands asks for before and after it.
    pub fn vfe(&mut self, random: &mut Random, vfe: Vfe) {
        if !self.vfes.is_empty() {
            self.commands.push(Command::plain(1));
        }
        let command = Command::vfe(random, self.chip, Rows(1, 2, 4));
        self.push_vfe(random, command, vfe);
    }

    /// The last VFE with this scoreboard, after flushes and no-ops of these kinds.
    pub fn scoreboard(&mut self, random: &mut Random, flushes: &[usize], vfe: Vfe) {
        let mut commands = self.commands.iter().rev();
        let last = commands.find(|command| command.kind == 3).cloned();
        for &kind in flushes {
            let flush = Command::random(random, self.chip, kind);
            self.commands.push(flush);
        }
        self.push_vfe(random, last.expect("a VFE"), vfe);
    }

    fn push_vfe(&mut self, random: &mut Random, mut command: Command, vfe: Vfe) {
        let flags = u32::from(vfe.enable) << 31 | u32::from(!vfe.stalling) << 30;
        command.words[5] = flags | u32::from(vfe.mask);
        for (half, dword) in [(0, 6), (4, 7)] {
            let deltas = (0..4).map(|at| (at, vfe.deltas[half + at]));
            command.words[dword] = deltas.fold(0, |joined, (at, (x, y))| {
                joined | (nibble(y) << 4 | nibble(x)) << (8 * at)
            });
        }
        self.commands.push(command);
        // The count last loaded stays, so later VFEs do without a load at times.
        if self.vfes.is_empty() || random.one_in(2) {
            self.commands.push(Command::load(5, 64, 0x1000));
        }
        self.vfes.push(vfe);
    }

    pub fn last_vfe(&self) -> Vfe {
        *self.vfes.last().expect("a VFE")
    }

    /// An OBJECT under the last VFE.
    pub fn object(&mut self, random: &mut Random, object: Object, inline: usize) {
        let mut command = Command::object(random, self.chip, 1, inline);
        command.words[2] = command.words[2] & !(1 << 21) | u32::from(object.own_use) << 21;
        command.words[4] = (object.y as u32) << 16 | object.x as u32;
        command.words[5] = object.colour << 16 | u32::from(object.mask);
        self.commands.push(command);
        self.objects.push((object, self.vfes.len() - 1));
    }

    /// A command that changes nothing on the scoreboard: no-op, flush, state
    /// flush or, after a VFE, CURBE load and on Gen6 gateway state.
    pub fn filler(&mut self, random: &mut Random) {
        let kinds: &[usize] = match self.chip {
            6 => &[0, 0, 1, 4, 6, 8, 8],
            _ => &[0, 0, 1, 4, 6],
        };
        let command = match random.pick(kinds) {
            4 | 8 if self.vfes.is_empty() => Command::plain(0),
            4 => Command::load(4, 32 * random.below(5) as u32, 0x40),
            kind => Command::random(random, self.chip, kind),
        };
        self.commands.push(command);
    }

    /// The batch, its commands and the rows that it needs.
    pub fn batch(&self) -> (Vec<u32>, usize, u32) {
        let mut commands = self.commands.clone();
        commands.push(Command::plain(2));
        (flat(&commands), commands.len(), rows(&commands))
    }

    pub fn objects(&self) -> usize {
        self.objects.len()
    }

    fn uses_scoreboard(&self, number: usize) -> bool {
        let (object, vfe) = self.objects[number];
        object.own_use && self.vfes[vfe].enable
    }

    /// The lowest delta by which object `k` waits for the unfinished object `j`.
    fn delta_at(&self, k: usize, j: usize) -> Option<usize> {
        let (own, vfe) = self.objects[k];
        let (other, _) = self.objects[j];
        let vfe = self.vfes[vfe];
        if !self.uses_scoreboard(k) || !self.uses_scoreboard(j) || own.colour != other.colour {
            return None;
        }
        (0..8).find(|&delta| {
            let (x, y) = vfe.deltas[delta];
            let in_play = (own.mask & vfe.mask) >> delta & 1 == 1;
            in_play && (other.x, other.y) == (own.x + x, own.y + y)
        })
    }

    /// The event's refusal, with the object and the delta that it names.
    pub fn refusal(&self, states: &[u8], event: u32) -> Option<(u64, usize, usize)> {
        let k = (event / 2) as usize;
        if k >= self.objects.len() {
            return Some((21, 0, 0));
        }
        if event % 2 == 1 {
            return (states[k] != RUNNING).then_some((23, 0, 0));
        }
        if states[k] != WAITING {
            return Some((22, 0, 0));
        }
        let (_, vfe) = self.objects[k];
        if self.uses_scoreboard(k) && self.vfes[vfe].stalling {
            if let Some(j) = (0..k).find(|&j| states[j] == WAITING) {
                return Some((24, j, 0));
            }
        }
        let mut unfinished = (0..k).filter(|&j| states[j] != FINISHED);
        unfinished.find_map(|j| self.delta_at(k, j).map(|delta| (25, j, delta)))
    }

    /// What the run is to answer, and the states that it leaves.
    pub fn judge(&self, run: &[u32]) -> (Answer, Vec<u8>) {
        let mut states = vec![WAITING; self.objects.len()];
        for (position, &event) in run.iter().enumerate() {
            if let Some((number, object, delta)) = self.refusal(&states, event) {
                return (Answer::naming(number, position, object, delta), states);
            }
            states[event as usize / 2] += 1;
        }
        (Answer::new(0, run.len()), states)
    }
}

/// How a run goes about its objects.
#[derive(Clone, Copy)]
pub struct Habit {
    /// How often, in eighths, a start is tried before a finish.
    pub starts: usize,
    /// Starts any object that may; else the lowest one waiting.
    pub any: bool,
}

/// A run that has kept to the rules so far.
pub struct Follower<'a> {
    scene: &'a Scene,
    states: Vec<u8>,
    pub run: Vec<u32>,
}

impl<'a> Follower<'a> {
    pub fn new(scene: &'a Scene) -> Self {
        Follower {
            scene,
            states: vec![WAITING; scene.objects()],
            run: Vec::new(),
        }
    }

    fn in_state(&self, state: u8) -> Vec<u32> {
        let objects = 0..self.states.len();
        let found = objects.filter(|&object| self.states[object] == state);
        found.map(|object| object as u32).collect()
    }

    fn push(&mut self, event: u32) {
        self.run.push(event);
        self.states[event as usize / 2] += 1;
    }

    /// One permitted event more; false when every object is finished.
    pub fn step(&mut self, random: &mut Random, habit: Habit) -> bool {
        let waiting = self.in_state(WAITING);
        let running = self.in_state(RUNNING);
        if !waiting.is_empty() && random.below(8) < habit.starts {
            for _ in 0..4 {
                let object = match habit.any {
                    true => random.pick(&waiting),
                    false => waiting[0],
                };
                if self.scene.refusal(&self.states, 2 * object).is_none() {
                    self.push(2 * object);
                    return true;
                }
            }
        }
        // Where none runs, the lowest one waiting waits for nobody.
        match (running.is_empty(), waiting.first()) {
            (false, _) => self.push(2 * random.pick(&running) + 1),
            (true, Some(lowest)) => self.push(2 * lowest),
            (true, None) => return false,
        }
        true
    }

    /// Up to so many permitted events more.
    pub fn follow(&mut self, random: &mut Random, habit: Habit, events: usize) {
        for _ in 0..events {
            if !self.step(random, habit) {
                break;
            }
        }
    }

    /// An event that is refused here with this number, if there is one.
    pub fn refused_event(&self, random: &mut Random, number: u64) -> Option<u32> {
        let objects = self.states.len() as u32;
        let beyond = 2 * objects + random.below(4) as u32;
        let far = random.pick(&[
            2 * objects,
            2 * objects + 1,
            u32::MAX - 1,
            u32::MAX,
            1 << 31,
        ]);
        let events = (0..2 * objects).chain([beyond, far]);
        let refused = |&event: &u32| {
            let refusal = self.scene.refusal(&self.states, event);
            refusal.is_some_and(|(found, _, _)| found == number)
        };
        let events: Vec<u32> = events.filter(refused).collect();
        (!events.is_empty()).then(|| random.pick(&events))
    }
}

/// The order of a picture's blocks in the batch.
#[derive(Clone, Copy, Debug, PartialEq, Eq)]
pub enum Layout {
    /// Line by line.
    Raster,
    /// By waves: blocks that wait for no block of their own wave.
    Waves,
}

/// A picture of blocks, each predicted from its left, upper and upper right
/// neighbour, and the run in which every block starts and finishes: block by
/// block in raster order, or wave by wave, all of a wave in flight.
pub fn picture(chip: u32, size: (i32, i32), layout: Layout, stalling: bool) -> (Scene, Vec<u32>) {
    in_passes(chip, size, layout, stalling, &PASSES[..1])
}

/// Such a picture in three passes one after the other. The VFE of a later one changes
/// deltas alone, after a state flush: each block waits for itself in the passes before.
pub fn passes(chip: u32, size: (i32, i32), layout: Layout, stalling: bool) -> (Scene, Vec<u32>) {
    in_passes(chip, size, layout, stalling, &PASSES)
}

/// The deltas of each pass.
const PASSES: [[(i32, i32); 3]; 3] = [
    [(-1, 0), (0, -1), (1, -1)],
    [(-1, 0), (0, -1), (0, 0)],
    [(1, -1), (0, 0), (-1, 0)],
];

fn in_passes(
    chip: u32,
    (width, height): (i32, i32),
    layout: Layout,
    stalling: bool,
    passes: &[[(i32, i32); 3]],
) -> (Scene, Vec<u32>) {
    let random = &mut Random::new(1);
    let mut scene = Scene::new(chip);
    let mut run = Vec::new();
    for pass in passes {
        let mut vfe = Vfe {
            enable: true,
            stalling,
            mask: 0b111,
            deltas: [(0, 0); 8],
        };
        vfe.deltas[..3].copy_from_slice(pass);
        match scene.vfes.is_empty() {
            true => scene.vfe(random, vfe),
            false => scene.scoreboard(random, &[6], vfe),
        }
        for blocks in waves(width, height, layout) {
            let first = scene.objects() as u32;
            for (x, y) in blocks {
                let block = Object {
                    own_use: true,
                    x,
                    y,
                    colour: 0,
                    mask: 0b111,
                };
                scene.object(random, block, 3);
            }
            let blocks = first..scene.objects() as u32;
            run.extend(blocks.clone().map(|block| 2 * block));
            run.extend(blocks.map(|block| 2 * block + 1));
        }
    }
    (scene, run)
}

/// So many objects of Gen7 under one VFE, each where and as `object` says, with no inline
/// data.
pub fn field(objects: usize, vfe: Vfe, object: impl Fn(usize) -> Object) -> Scene {
    field_with_gaps(objects, &[], vfe, object)
}

/// The same with so many no-ops after each of the first objects.
pub fn field_with_gaps(
    objects: usize,
    no_ops: &[usize],
    vfe: Vfe,
    object: impl Fn(usize) -> Object,
) -> Scene {
    let random = &mut Random::new(1);
    let mut scene = Scene::new(7);
    scene.vfe(random, vfe);
    for number in 0..objects {
        scene.object(random, object(number), 0);
        let no_ops = no_ops.get(number).copied().unwrap_or(0);
        scene.commands.extend(vec![Command::plain(0); no_ops]);
    }
    scene
}

/// The blocks that run together, in the order in which they do.
fn waves(width: i32, height: i32, layout: Layout) -> Vec<Vec<(i32, i32)>> {
    let raster = (0..height).flat_map(|y| (0..width).map(move |x| (x, y)));
    match layout {
        Layout::Raster => raster.map(|block| vec![block]).collect(),
        Layout::Waves => (0..width + 2 * height - 2)
            .map(|wave| raster.clone().filter(|(x, y)| x + 2 * y == wave).collect())
            .collect(),
    }
}
