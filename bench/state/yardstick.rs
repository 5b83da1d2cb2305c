//! The yardstick of main.rt.txt: a state with the same fields is copied and hashed, and so are the parts and interfaces of
//! its four libraries.

use std::collections::hash_map::DefaultHasher;
use std::hash::{Hash, Hasher};
use std::hint::black_box;
use std::time::Instant;

const LOCATIONS: usize = 8;
const BINDINGS: usize = 4;
const SETS: usize = 4;
const ENTRIES: usize = 16;
const ATTACHMENTS: usize = 8;

/// States that are gone round: each has a module of its own.
const COUNT: u32 = 16;

/// How often they are gone round in a round.
const TURNS: u32 = 2_500;

/// Rounds, of which the best counts.
const ROUNDS: u32 = 5;

#[derive(Clone, Copy, Hash)]
enum Topology {
    #[allow(dead_code)]
    Points,
    Triangles,
}

#[derive(Clone, Copy, Hash)]
struct VertexBinding {
    stride: u32,
    per_instance: bool,
}

#[derive(Clone, Copy, Hash)]
struct Attribute {
    binding: u8,
    comps: u8,
    signed: bool,
    offset: u32,
}

#[derive(Clone, Copy, Hash)]
struct Layout {
    independent: bool,
    push_words: u8,
    sets: [Option<u8>; SETS],
}

#[derive(Clone, Copy, Hash)]
struct Entry {
    id: u32,
    value: u32,
}

#[derive(Clone, Copy, Hash)]
struct SpecValues {
    entries: [Option<Entry>; ENTRIES],
}

#[derive(Clone, Copy, Hash)]
struct Depth {
    compare: u8,
    write: bool,
}

#[derive(Clone, Copy, Hash)]
struct Multisample {
    samples: u8,
    mask: u8,
}

#[derive(Clone, Copy, Hash)]
struct Attachment {
    format: u8,
    write_mask: u8,
}

#[derive(Clone, Copy, Hash)]
struct VertexPart {
    retain: bool,
    topology: Topology,
    bindings: [Option<VertexBinding>; BINDINGS],
    attributes: [Option<Attribute>; LOCATIONS],
}

#[derive(Clone, Copy, Hash)]
struct PrerastPart {
    retain: bool,
    module: u32,
    layout: Layout,
    view_mask: u8,
    discard: bool,
    cull: u8,
    ccw: bool,
    entries: SpecValues,
}

#[derive(Clone, Copy, Hash)]
struct FragmentPart {
    retain: bool,
    module: u32,
    layout: Layout,
    view_mask: u8,
    depth: Option<Depth>,
    multisample: Option<Multisample>,
    entries: SpecValues,
}

#[derive(Clone, Copy, Hash)]
struct OutputPart {
    retain: bool,
    view_mask: u8,
    multisample: Multisample,
    logic: Option<u8>,
    attachments: [Option<Attachment>; ATTACHMENTS],
}

#[derive(Clone, Copy, Hash)]
struct State {
    vertex: VertexPart,
    prerast: PrerastPart,
    fragment: Option<FragmentPart>,
    output: Option<OutputPart>,
}

#[derive(Clone, Copy, Hash)]
struct Slot {
    comps: u8,
    signed: bool,
}

#[derive(Clone, Copy, Hash)]
struct Iface {
    slots: [Option<Slot>; LOCATIONS],
}

/// The libraries of a state: its parts, and the interfaces of the two modules.
#[derive(Clone, Copy, Hash)]
struct Libraries {
    state: State,
    interfaces: [Iface; 4],
}

fn spec_values(count: usize) -> SpecValues {
    let mut entries = [None; ENTRIES];
    for (place, entry) in entries.iter_mut().take(count).enumerate() {
        *entry = Some(Entry { id: (ENTRIES - place) as u32, value: place as u32 });
    }
    SpecValues { entries }
}

fn full_state(module: u32, entries: usize) -> State {
    let layout = Layout { independent: true, push_words: 32, sets: [Some(255); SETS] };
    let multisample = Multisample { samples: 4, mask: 15 };
    let mut attributes = [None; LOCATIONS];
    for (location, attribute) in attributes.iter_mut().enumerate() {
        let binding = (location % BINDINGS) as u8;
        *attribute = Some(Attribute { binding, comps: 4, signed: false, offset: location as u32 * 4 });
    }
    State {
        vertex: VertexPart {
            retain: true,
            topology: Topology::Triangles,
            bindings: [Some(VertexBinding { stride: 32, per_instance: false }); BINDINGS],
            attributes,
        },
        prerast: PrerastPart {
            retain: true,
            module,
            layout,
            view_mask: 3,
            discard: false,
            cull: 2,
            ccw: true,
            entries: spec_values(entries),
        },
        fragment: Some(FragmentPart {
            retain: true,
            module,
            layout,
            view_mask: 3,
            depth: Some(Depth { compare: 1, write: true }),
            multisample: Some(multisample),
            entries: spec_values(entries),
        }),
        output: Some(OutputPart {
            retain: true,
            view_mask: 3,
            multisample,
            logic: Some(6),
            attachments: [Some(Attachment { format: 4, write_mask: 15 }); ATTACHMENTS],
        }),
    }
}

fn copy_and_hash<T: Copy + Hash>(value: &T, place: &mut T) -> u64 {
    *place = black_box(*value);
    let mut hasher = DefaultHasher::new();
    place.hash(&mut hasher);
    hasher.finish()
}

/// The nanoseconds of the best round.
fn time<T: Copy + Hash>(values: &[T]) -> u128 {
    let mut places = values.to_vec();
    (0..ROUNDS)
        .map(|_| {
            let start = Instant::now();
            for _ in 0..TURNS {
                for (value, place) in values.iter().zip(&mut places) {
                    black_box(copy_and_hash(black_box(value), place));
                }
            }
            start.elapsed().as_nanos()
        })
        .min()
        .unwrap()
}

fn time_all(entries: usize) {
    let states: Vec<State> = (0..COUNT).map(|module| full_state(module, entries)).collect();
    let interface = Iface { slots: [Some(Slot { comps: 4, signed: false }); LOCATIONS] };
    let libraries: Vec<Libraries> = states
        .iter()
        .map(|state| Libraries { state: *state, interfaces: [interface; 4] })
        .collect();
    let calls = COUNT * TURNS;
    println!("canon, {entries} entries a stage\t{}\t{calls}", time(&states));
    println!("key_of, {entries} entries a stage\t{}\t{calls}", time(&states));
    println!("link, {entries} entries a stage\t{}\t{calls}", time(&libraries));
}

fn main() {
    time_all(8);
    time_all(16);
}
