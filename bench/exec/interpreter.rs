//! An interpreter of the shape of `spv_exec`, in plain Rust. The instructions are kept as they were read; each value has its place in one
//! frame of words, each variable in one memory, and an id is looked up in a table by id. The benchmarks of modules and of draws run it.

const OUTSIDE: u32 = u32::MAX;
const BACK_EDGES: u32 = 4_096;

pub struct Inst {
    op: u16,
    words: Vec<u32>,
}

#[derive(Clone)]
enum Shape {
    None,
    Word,
    Vector(u32),
    Array(u32, u32),
    Struct(Vec<u32>, Vec<u32>),
    Pointer(u32),
}

pub struct Module {
    pub insts: Vec<Inst>,
    bound: usize,
}

pub fn read(words: &[u32]) -> Module {
    let mut insts = Vec::new();
    let mut at = 5;
    while at < words.len() {
        let count = (words[at] >> 16) as usize;
        insts.push(Inst { op: words[at] as u16, words: words[at + 1..at + count].to_vec() });
        at += count;
    }
    Module { insts, bound: words[3] as usize }
}

/// The place of the result's id among an instruction's words.
fn result_place(op: u16) -> Option<usize> {
    match op {
        19..=33 => Some(0),
        248 => Some(0),
        43..=52 | 54 | 59 | 61 | 65 | 79..=82 | 124 | 126..=205 | 245 | 1 => Some(1),
        _ => None,
    }
}

/// What a variable of an interface is filled from, or read into.
#[derive(Clone, Copy)]
enum Slot {
    Location(usize),
    Position,
    VertexIndex,
    InstanceIndex,
    FragCoord,
    FrontFacing,
}

struct Variable {
    slot: Slot,
    place: usize,
    words: usize,
}

/// What a run is given.
#[derive(Default)]
pub struct Given {
    pub slots: [[u32; 4]; 8],
    pub vertex_index: u32,
    pub instance_index: u32,
    pub frag_coord: [u32; 4],
    pub front: bool,
}

pub struct Prepared<'m> {
    module: &'m Module,
    defined: Vec<Option<u32>>,
    frame_places: Vec<u32>,
    memory_places: Vec<u32>,
    shapes: Vec<Shape>,
    types: Vec<u32>,
    constants: Vec<u32>,
    uniforms: Vec<(u32, u32, Vec<u32>)>,
    inputs: Vec<Variable>,
    outputs: Vec<Variable>,
    first: usize,
    pub frame: Vec<u32>,
    incoming: Vec<u32>,
    memory: Vec<u32>,
}

/// What a run leaves. The kind is 0 where it was done, 1 where it was killed, 2 where it was lost.
#[derive(Clone)]
pub struct Ended {
    pub kind: u8,
    pub position: [u32; 4],
    pub slots: [[u32; 4]; 8],
    pub work: u64,
}

/// The word behind a decoration of the id.
fn decoration(insts: &[Inst], id: u32, decoration: u32) -> Option<u32> {
    insts.iter().find(|inst| inst.op == 71 && inst.words[0] == id && inst.words[1] == decoration).map(|inst| inst.words[2])
}

fn slot_of(insts: &[Inst], id: u32) -> Option<Slot> {
    if let Some(location) = decoration(insts, id, 30) {
        return Some(Slot::Location(location as usize));
    }
    match decoration(insts, id, 11)? {
        0 => Some(Slot::Position),
        15 => Some(Slot::FragCoord),
        17 => Some(Slot::FrontFacing),
        42 => Some(Slot::VertexIndex),
        43 => Some(Slot::InstanceIndex),
        _ => None,
    }
}

impl Given {
    fn words(&self, slot: Slot) -> [u32; 4] {
        match slot {
            Slot::Location(location) => self.slots[location],
            Slot::VertexIndex => [self.vertex_index, 0, 0, 0],
            Slot::InstanceIndex => [self.instance_index, 0, 0, 0],
            Slot::FragCoord => self.frag_coord,
            Slot::FrontFacing => [u32::from(self.front), 0, 0, 0],
            Slot::Position => [0; 4],
        }
    }
}


fn size(shapes: &[Shape], id: u32) -> u32 {
    match &shapes[id as usize] {
        Shape::None => 0,
        Shape::Word => 1,
        Shape::Vector(count) => *count,
        Shape::Array(element, count) => size(shapes, *element) * count,
        Shape::Struct(members, _) => members.iter().map(|member| size(shapes, *member)).sum(),
        Shape::Pointer(_) => 1,
    }
}

impl<'m> Prepared<'m> {
    /// With these values of specialization constants, by id.
    pub fn new(module: &'m Module, entries: &[(u32, u32)]) -> Prepared<'m> {
        let (insts, bound) = (&module.insts, module.bound);
        let mut defined = vec![None; bound];
        let mut shapes = vec![Shape::None; bound];
        let mut types = vec![0; bound];
        let mut frame_places = vec![0];
        let mut memory_places = vec![0];
        for (place, inst) in insts.iter().enumerate() {
            let words = &inst.words;
            match inst.op {
                20 | 21 => shapes[words[0] as usize] = Shape::Word,
                23 => shapes[words[0] as usize] = Shape::Vector(words[2]),
                28 => {
                    let length = insts[defined[words[2] as usize].unwrap() as usize].words[2];
                    shapes[words[0] as usize] = Shape::Array(words[1], length);
                }
                30 => {
                    let mut starts = Vec::new();
                    let mut start = 0;
                    for member in &words[1..] {
                        starts.push(start);
                        start += size(&shapes, *member);
                    }
                    shapes[words[0] as usize] = Shape::Struct(words[1..].to_vec(), starts);
                }
                32 => shapes[words[0] as usize] = Shape::Pointer(words[2]),
                _ => {}
            }
            let mut frame = 0;
            let mut memory = 0;
            if let Some(at) = result_place(inst.op) {
                defined[words[at] as usize] = Some(place as u32);
                if at == 1 {
                    types[words[1] as usize] = words[0];
                    frame = size(&shapes, words[0]);
                }
                if inst.op == 59 {
                    if let Shape::Pointer(held) = shapes[words[0] as usize] {
                        memory = size(&shapes, held);
                    }
                }
            }
            frame_places.push(frame_places[place] + frame);
            memory_places.push(memory_places[place] + memory);
        }
        let first = insts.iter().position(|inst| inst.op == 248).unwrap();
        let length = frame_places[insts.len()] as usize;
        let memory = memory_places[insts.len()] as usize;
        let mut constants = vec![0; length];
        let mut uniforms = Vec::new();
        let mut inputs = Vec::new();
        let mut outputs = Vec::new();
        for (place, inst) in insts.iter().take(first).enumerate() {
            match inst.op {
                43 => constants[frame_places[place] as usize] = inst.words[2],
                50 => {
                    let id = decoration(insts, inst.words[1], 1);
                    let entry = entries.iter().find(|entry| Some(entry.0) == id);
                    constants[frame_places[place] as usize] = entry.map_or(inst.words[2], |entry| entry.1);
                }
                59 => {
                    constants[frame_places[place] as usize] = memory_places[place];
                    let words = memory_places[place + 1] - memory_places[place];
                    if inst.words[2] == 2 {
                        uniforms.push((memory_places[place], words, (0..words).map(|k| 4 * k).collect()));
                    } else if let Some(slot) = slot_of(insts, inst.words[1]) {
                        let variable = Variable { slot, place: memory_places[place] as usize, words: words as usize };
                        if inst.words[2] == 1 { inputs.push(variable) } else { outputs.push(variable) }
                    }
                }
                _ => {}
            }
        }
        Prepared {
            module,
            defined,
            frame_places,
            memory_places,
            shapes,
            types,
            constants,
            uniforms,
            inputs,
            outputs,
            first,
            frame: vec![0; length],
            incoming: vec![0; length],
            memory: vec![0; memory],
        }
    }

    fn place(&self, id: u32) -> usize {
        self.frame_places[self.defined[id as usize].unwrap_or(0) as usize] as usize
    }

    fn word(&self, id: u32) -> u32 {
        self.frame[self.place(id)]
    }

    fn words_of(&self, place: usize) -> usize {
        (self.frame_places[place + 1] - self.frame_places[place]) as usize
    }

    fn take_values(&mut self, mut place: usize, before: u32) {
        while self.module.insts[place].op == 245 {
            let words = &self.module.insts[place].words;
            for pair in words[2..].chunks_exact(2) {
                if pair[1] == before {
                    let (from, to, count) = (self.place(pair[0]), self.frame_places[place] as usize, self.words_of(place));
                    for k in 0..count {
                        self.incoming[to + k] = self.frame[from + k];
                    }
                    break;
                }
            }
            place += 1;
        }
    }

    fn chain(&self, words: &[u32]) -> u32 {
        let mut at = self.word(words[2]);
        let Shape::Pointer(mut held) = self.shapes[self.types[words[2] as usize] as usize] else { return OUTSIDE };
        if at == OUTSIDE {
            return OUTSIDE;
        }
        for index in &words[3..] {
            let index = self.word(*index);
            match &self.shapes[held as usize] {
                Shape::Vector(count) if index < *count => at += index,
                Shape::Array(element, count) if index < *count => {
                    at += index * size(&self.shapes, *element);
                    held = *element;
                }
                Shape::Struct(members, starts) if (index as usize) < members.len() => {
                    at += starts[index as usize];
                    held = members[index as usize];
                }
                _ => return OUTSIDE,
            }
        }
        at
    }

    fn binary(op: u16, a: u32, b: u32) -> u32 {
        match op {
            128 => a.wrapping_add(b),
            130 => a.wrapping_sub(b),
            132 => a.wrapping_mul(b),
            134 => a.checked_div(b).unwrap_or(0),
            137 => a.checked_rem(b).unwrap_or(0),
            170 => (a == b) as u32,
            171 => (a != b) as u32,
            172 => (a > b) as u32,
            173 => ((a as i32) > (b as i32)) as u32,
            174 => (a >= b) as u32,
            175 => ((a as i32) >= (b as i32)) as u32,
            176 => (a < b) as u32,
            177 => ((a as i32) < (b as i32)) as u32,
            178 => (a <= b) as u32,
            179 => ((a as i32) <= (b as i32)) as u32,
            194 => a.checked_shr(b).unwrap_or(0),
            195 => ((a as i32) >> b.min(31)) as u32,
            196 => a.checked_shl(b).unwrap_or(0),
            197 => a | b,
            198 => a ^ b,
            199 => a & b,
            _ => 0,
        }
    }

    /// `uniform` has the words at set 0 and binding 0.
    pub fn run(&mut self, given: &Given, uniform: &[u32]) -> Ended {
        self.frame.copy_from_slice(&self.constants);
        self.memory.fill(0);
        for (place, words, offsets) in &self.uniforms {
            for k in 0..*words as usize {
                let at = (offsets[k] / 4) as usize;
                self.memory[*place as usize + k] = uniform.get(at).copied().unwrap_or(0);
            }
        }
        for input in &self.inputs {
            let words = given.words(input.slot);
            self.memory[input.place..input.place + input.words].copy_from_slice(&words[..input.words]);
        }
        let module = self.module;
        let (mut place, mut label, mut back_edges, mut work) = (self.first, 0, 0, 0);
        let kind = loop {
            let inst = &module.insts[place];
            let words = &inst.words;
            work += 1;
            let to = match inst.op {
                248 => {
                    let before = label;
                    label = words[0];
                    self.take_values(place + 1, before);
                    None
                }
                245 => {
                    let at = self.frame_places[place] as usize;
                    for k in 0..self.words_of(place) {
                        self.frame[at + k] = self.incoming[at + k];
                    }
                    None
                }
                59 => {
                    self.frame[self.frame_places[place] as usize] = self.memory_places[place];
                    None
                }
                246 | 247 => None,
                62 => {
                    let (to, from) = (self.word(words[0]), self.place(words[1]));
                    let count = self.words_of(self.defined[words[1] as usize].unwrap_or(0) as usize);
                    if to != OUTSIDE {
                        for k in 0..count {
                            self.memory[to as usize + k] = self.frame[from + k];
                        }
                    }
                    None
                }
                61 => {
                    let (from, to) = (self.word(words[2]), self.frame_places[place] as usize);
                    for k in 0..self.words_of(place) {
                        self.frame[to + k] = if from == OUTSIDE { 0 } else { self.memory[from as usize + k] };
                    }
                    None
                }
                65 => {
                    self.frame[self.frame_places[place] as usize] = self.chain(words);
                    None
                }
                249 => Some(words[0]),
                250 => Some(if self.word(words[0]) != 0 { words[1] } else { words[2] }),
                251 => {
                    let selector = self.word(words[0]);
                    Some(words[2..].chunks_exact(2).find(|case| case[0] == selector).map_or(words[1], |case| case[1]))
                }
                253 | 255 => break 0,
                252 => break 1,
                op => {
                    let to = self.frame_places[place] as usize;
                    let (a, b) = (self.place(words[2]), self.place(words[3]));
                    for k in 0..self.words_of(place) {
                        self.frame[to + k] = Self::binary(op, self.frame[a + k], self.frame[b + k]);
                    }
                    None
                }
            };
            match to {
                None => place += 1,
                Some(target) => {
                    let target = self.defined[target as usize].unwrap_or(0) as usize;
                    if target <= place {
                        back_edges += 1;
                        if back_edges >= BACK_EDGES {
                            break 2;
                        }
                    }
                    place = target;
                }
            }
        };
        let mut ended = Ended { kind, position: [0; 4], slots: [[0; 4]; 8], work };
        if kind == 0 {
            for output in &self.outputs {
                let words = &self.memory[output.place..output.place + output.words];
                match output.slot {
                    Slot::Location(location) => ended.slots[location][..output.words].copy_from_slice(words),
                    _ => ended.position[..output.words].copy_from_slice(words),
                }
            }
        }
        ended
    }
}

