//! Seeded pools with bootstrap methods: right ones, of which the references lead anywhere, and damaged ones.

use crate::constant::{Bootstrap, Constant, TAGS, bootstraps_of, pool_of};
use crate::frame::{BOOTSTRAPS_ROOM, Frame, POOL_ROOM, ROOM};
use crate::listing::list;
use jobs::random::Random;

/// A frame, and what was done to it.
pub struct Made {
    pub how: &'static str,
    pub frame: Frame,
}

type Damage = (&'static str, fn(&mut Random, &mut Frame));

const DAMAGES: [Damage; 12] = [
    ("a byte changed", |random, frame| {
        change(random, &mut frame.pool)
    }),
    ("a byte made a tag", |random, frame| {
        retag(random, &mut frame.pool)
    }),
    ("a bit changed", |random, frame| {
        flip(random, &mut frame.pool)
    }),
    ("cut", |random, frame| cut(random, &mut frame.pool)),
    ("bytes behind it", |random, frame| {
        lengthen(random, &mut frame.pool)
    }),
    ("a byte left out", |random, frame| {
        leave_out(random, &mut frame.pool)
    }),
    ("a byte put in", |random, frame| {
        put_in(random, &mut frame.pool)
    }),
    ("another slot count", |random, frame| {
        recount(random, &mut frame.pool)
    }),
    ("bootstraps: another count", |random, frame| {
        let by = 1 + random.below(2) as u16;
        let up = random.chance(1, 2);
        frame.count = if up {
            frame.count.wrapping_add(by)
        } else {
            frame.count.wrapping_sub(by)
        };
    }),
    ("bootstraps: a byte changed", |random, frame| {
        change(random, &mut frame.bootstraps)
    }),
    ("bootstraps: cut", |random, frame| {
        cut(random, &mut frame.bootstraps)
    }),
    ("bootstraps: bytes behind them", |random, frame| {
        lengthen(random, &mut frame.bootstraps)
    }),
];

/// Bytes of a text: printable ones, the quote and the backslash, both ends of the printable, and any.
const TEXT_BYTES: &[u8] = b"aZ09/;()<> ~\"\\\"\\\n\r\t\0\x1f\x7f\x80\xc0\xe2\xff";

const LONGS: &[i64] = &[
    0,
    1,
    -1,
    9,
    -10,
    255,
    i32::MAX as i64,
    i32::MIN as i64,
    1 << 32,
    i64::MAX,
    i64::MIN,
];

const FLOATS: &[u32] = &[
    0,
    1,
    0x8000_0000,
    0x3f80_0000,
    0xbdcc_cccd,
    0x7f80_0000,
    0xff80_0000,
    0x7fc0_0000,
    0xff80_0001,
    0x007f_ffff,
    0x0080_0000,
    0x7f7f_ffff,
];

const DOUBLES: &[u64] = &[
    0,
    1,
    1 << 63,
    0x3ff0_0000_0000_0000,
    0x3fb9_9999_9999_999a,
    0x7ff0_0000_0000_0000,
    0xfff0_0000_0000_0000,
    0x7ff8_0000_0000_0000,
    0xfff0_0000_0000_0001,
    0x000f_ffff_ffff_ffff,
    0x0010_0000_0000_0000,
    0x7fef_ffff_ffff_ffff,
];

/// One in 400 is full, explodes or ends about the room; of the others one in four is left whole.
pub fn next(random: &mut Random) -> Made {
    match random.below(2000) {
        0 => made("full", full(random)),
        1 => made("about the room", about_the_room(random)),
        2..=4 => made("exploding", exploding(random)),
        5..500 => made("whole", whole(random)),
        _ => {
            let mut frame = whole(random);
            let (how, damage) = random.pick(&DAMAGES);
            damage(random, &mut frame);
            made(how, frame)
        }
    }
}

fn made(how: &'static str, frame: Frame) -> Made {
    Made { how, frame }
}

/// The tags of a pool with the slots where they stand, before what they refer to is chosen.
struct Plan {
    standing: Vec<(u16, u8)>,
    count: u16,
    methods: u16,
}

impl Plan {
    fn new(random: &mut Random) -> Self {
        let size = if random.chance(1, 20) { 40 } else { 13 };
        let mut standing = Vec::new();
        let mut count = 1;
        for _ in 0..random.below(size) {
            let tag = match random.below(6) {
                0 => 1,
                1 => 17,
                _ => *random.pick(&TAGS),
            };
            standing.push((count, tag));
            count += 1 + u16::from(tag == 5 || tag == 6);
        }
        let methods = *random.pick(&[0, 0, 1, 1, 1, 2, 2, 3, 5]);
        Self {
            standing,
            count,
            methods,
        }
    }

    /// A slot of one of these tags if there is one; now and then any slot, one past the last, or any number.
    fn slot(&self, random: &mut Random, tags: &[u8]) -> u16 {
        let fitting: Vec<u16> = self
            .standing
            .iter()
            .filter(|(_, tag)| tags.contains(tag))
            .map(|(slot, _)| *slot)
            .collect();
        match random.below(16) {
            0 => *random.pick(&[0, 1, self.count - 1, self.count, 0xffff, 0xfffe, 256]),
            1..=3 => random.below(usize::from(self.count) + 2) as u16,
            _ if fitting.is_empty() => random.below(usize::from(self.count)) as u16,
            _ => *random.pick(&fitting),
        }
    }

    fn argument(&self, random: &mut Random) -> u16 {
        let dynamic = random.chance(1, 2);
        self.slot(random, if dynamic { &[17] } else { &TAGS })
    }

    fn method(&self, random: &mut Random) -> u16 {
        match random.below(16) {
            0 => *random.pick(&[self.methods, 0xffff, 256]),
            _ => random.below(usize::from(self.methods) + 1) as u16,
        }
    }

    fn constant(&self, random: &mut Random, tag: u8) -> Constant {
        match tag {
            1 => Constant::Text(text(random)),
            3 => Constant::Int(long(random) as i32),
            4 => Constant::Float(if random.chance(1, 2) {
                *random.pick(FLOATS)
            } else {
                random.bits() as u32
            }),
            5 => Constant::Long(long(random)),
            6 => Constant::Double(if random.chance(1, 2) {
                *random.pick(DOUBLES)
            } else {
                random.bits()
            }),
            15 => Constant::Handle {
                kind: if random.chance(3, 4) {
                    random.below(11) as u8
                } else {
                    random.byte()
                },
                reference: self.slot(random, &[9, 10, 11]),
            },
            9..=11 => Constant::Two(tag, self.slot(random, &[7]), self.slot(random, &[12])),
            12 => Constant::Two(tag, self.slot(random, &[1]), self.slot(random, &[1])),
            17 | 18 => Constant::Two(tag, self.method(random), self.slot(random, &[12])),
            _ => Constant::One(tag, self.slot(random, &[1])),
        }
    }
}

fn long(random: &mut Random) -> i64 {
    match random.below(4) {
        0 => *random.pick(LONGS),
        1 => random.below(300) as i64 - 150,
        2 => i64::from(random.bits() as i32),
        _ => random.bits() as i64,
    }
}

fn text(random: &mut Random) -> Vec<u8> {
    match random.below(8) {
        0 => Vec::new(),
        1 => b"BootstrapMethods".to_vec(),
        2 => {
            let length = random.below(300);
            random.bytes(length)
        }
        _ => (0..random.below(12))
            .map(|_| *random.pick(TEXT_BYTES))
            .collect(),
    }
}

/// A pool and bootstrap methods right in form.
pub fn whole(random: &mut Random) -> Frame {
    let plan = Plan::new(random);
    let tags = plan.standing.iter().map(|(_, tag)| *tag);
    let constants: Vec<_> = tags.map(|tag| plan.constant(random, tag)).collect();
    let methods: Vec<_> = (0..plan.methods)
        .map(|_| Bootstrap {
            handle: plan.slot(random, &[15]),
            arguments: (0..random.below(4))
                .map(|_| plan.argument(random))
                .collect(),
        })
        .collect();
    frame_of(&constants, &methods)
}

fn frame_of(constants: &[Constant], methods: &[Bootstrap]) -> Frame {
    Frame {
        pool: pool_of(constants),
        count: methods.len() as u16,
        bootstraps: bootstraps_of(methods),
    }
}

/// All 65,534 slots taken, and what stands in the last ones refers to them.
fn full(random: &mut Random) -> Frame {
    let mut constants = vec![Constant::Text(Vec::new()); 65_534];
    match random.below(4) {
        0 => constants[65_533] = Constant::One(7, 65_534),
        1 => constants[65_532] = Constant::Two(12, 65_534, 65_535),
        2 => {
            // the last two slots are a long, of which the second half leads nowhere
            constants.truncate(65_532);
            constants[0] = Constant::Two(12, 65_533, 65_534);
            constants.push(Constant::Long(-1));
        }
        _ => constants[65_530] = Constant::One(19, 65_530),
    }
    let mut frame = frame_of(&constants, &[]);
    if random.chance(1, 3) {
        recount(random, &mut frame.pool);
    }
    frame
}

/// A constant that is an argument of its own bootstrap method many times: some texts fit the room, most don't.
fn exploding(random: &mut Random) -> Frame {
    let dynamics = 1 + random.below(3) as u16;
    let mut constants = vec![Constant::Text(text(random)), Constant::Two(12, 1, 1)];
    for _ in 0..dynamics {
        constants.push(Constant::Two(17, random.below(2) as u16, 2));
    }
    let methods: Vec<_> = (0..2)
        .map(|_| {
            let most = *random.pick(&[4, 6, 9, 12, 40, 400, 20_000]);
            Bootstrap {
                handle: random.below(5) as u16,
                arguments: (0..random.below(most))
                    .map(|_| 3 + random.below(dynamics.into()) as u16)
                    .collect(),
            }
        })
        .collect();
    frame_of(&constants, &methods)
}

/// A listing of just the room, or a byte shorter or longer: a text again and again, and one that fills it up.
fn about_the_room(random: &mut Random) -> Frame {
    let repeated = 61_000;
    let strings = (ROOM / repeated - 1) as u16;
    let mut constants = vec![Constant::One(8, strings + 1); strings.into()];
    constants.push(Constant::Text(vec![b'x'; repeated]));
    let unfilled = [&constants[..], &[Constant::Text(Vec::new())]].concat();
    let listed = list(ROOM, &pool_of(&unfilled), 0, &[]).expect("it leaves room");
    let wanted = ROOM - 1 + random.below(3);
    constants.push(Constant::Text(vec![b'y'; wanted - listed.len()]));
    frame_of(&constants, &[])
}

fn change(random: &mut Random, bytes: &mut [u8]) {
    if !bytes.is_empty() {
        bytes[random.below(bytes.len())] = random.byte();
    }
}

fn flip(random: &mut Random, bytes: &mut [u8]) {
    if !bytes.is_empty() {
        bytes[random.below(bytes.len())] ^= 1 << random.below(8);
    }
}

fn retag(random: &mut Random, bytes: &mut [u8]) {
    if !bytes.is_empty() {
        bytes[random.below(bytes.len())] = if random.chance(1, 4) {
            random.below(23) as u8
        } else {
            *random.pick(&TAGS)
        };
    }
}

fn cut(random: &mut Random, bytes: &mut Vec<u8>) {
    bytes.truncate(random.below(bytes.len() + 1));
}

fn lengthen(random: &mut Random, bytes: &mut Vec<u8>) {
    let count = 1 + random.below(5);
    bytes.extend(random.bytes(count));
}

fn leave_out(random: &mut Random, bytes: &mut Vec<u8>) {
    if !bytes.is_empty() {
        bytes.remove(random.below(bytes.len()));
    }
}

fn put_in(random: &mut Random, bytes: &mut Vec<u8>) {
    bytes.insert(random.below(bytes.len() + 1), random.byte());
}

fn recount(random: &mut Random, pool: &mut [u8]) {
    let count = u16::from_be_bytes([pool[0], pool[1]]);
    let count = match random.below(6) {
        0 => 0,
        1 => random.bits() as u16,
        2 | 3 => count.wrapping_add(1),
        _ => count.wrapping_sub(1),
    };
    pool[..2].copy_from_slice(&count.to_be_bytes());
}

/// Every byte string of up to two bytes as a pool, and as bootstrap methods said to be none, one and two beside a pool of one text; and
/// every byte as a tag with so many bytes behind it, and as a text.
pub fn short() -> impl Iterator<Item = Made> {
    let as_pool = strings().map(|pool| Frame {
        pool,
        count: 0,
        bootstraps: vec![],
    });
    let as_bootstraps = (0..3).flat_map(|count| {
        strings().map(move |bootstraps| Frame {
            count,
            bootstraps,
            ..text_frame()
        })
    });
    let as_tag = (0..=255)
        .flat_map(|tag| (0..12).map(move |behind| [&[0, 2, tag][..], &vec![0; behind]].concat()));
    let as_wide = (0..=255).map(|tag| vec![0, 3, tag, 0, 0, 0, 0, 0, 0, 0, 0]);
    let as_text = (0..=255).map(|byte| vec![0, 2, 1, 0, 1, byte]);
    let pools = as_tag.chain(as_wide).chain(as_text).map(|pool| Frame {
        pool,
        count: 0,
        bootstraps: vec![],
    });
    as_pool
        .map(|frame| made("short pool", frame))
        .chain(as_bootstraps.map(|frame| made("short bootstraps", frame)))
        .chain(pools.map(|frame| made("short entry", frame)))
}

/// Pools and bootstrap methods that end about their room, and that are far longer, each right in form or not; behind each stands one that
/// is listed, so that it is seen that the stream goes on.
pub fn too_long() -> impl Iterator<Item = Made> {
    let pools = about(POOL_ROOM).flat_map(|length| {
        [vec![0; length], long_pool(length)].map(|pool| Frame {
            pool,
            ..text_frame()
        })
    });
    let bootstraps = about(BOOTSTRAPS_ROOM).flat_map(|length| {
        [0, 1].map(|count| Frame {
            count,
            bootstraps: long_method(length),
            ..text_frame()
        })
    });
    let both = Frame {
        pool: vec![0; 2 * POOL_ROOM],
        bootstraps: vec![0; 2 * BOOTSTRAPS_ROOM],
        ..text_frame()
    };
    let frames = pools.chain(bootstraps).chain([both]);
    frames.flat_map(|frame| [made("long", frame), made("behind it", text_frame())])
}

/// A byte less than the room, just it, and more: some of them fill it several times.
fn about(room: usize) -> impl Iterator<Item = usize> {
    let longer = [2 * room, 2 * room + 1, 3 * room - 1];
    (room - 1..=room + 1).chain(longer)
}

/// Texts that come to a pool of so many bytes.
fn long_pool(length: usize) -> Vec<u8> {
    let mut left = length - 2;
    let mut constants = Vec::new();
    while left > 0 {
        // what is left behind a text is none or has room for another
        let entry = if left > 60_000 { 50_000 } else { left };
        constants.push(Constant::Text(vec![b't'; entry - 3]));
        left -= entry;
    }
    pool_of(&constants)
}

/// A bootstrap method of so many bytes, if they are an even number and its arguments fit their count.
fn long_method(length: usize) -> Vec<u8> {
    let arguments = ((length - 4) / 2) as u16;
    let mut method = vec![0, 1];
    method.extend(arguments.to_be_bytes());
    method.resize(length, 0);
    method
}

/// A pool of one text.
fn text_frame() -> Frame {
    Frame {
        pool: b"\0\x02\x01\0\x01A".to_vec(),
        count: 0,
        bootstraps: vec![],
    }
}

fn strings() -> impl Iterator<Item = Vec<u8>> {
    let one = (0..=255).map(|a| vec![a]);
    let two = (0..=255).flat_map(|a| (0..=255).map(move |b| vec![a, b]));
    [vec![]].into_iter().chain(one).chain(two)
}
