//! A master packed as a file of version 2 in other ways than repacking does: what it plays is the same.

use crate::model::{Operation, PCM, PCM_MEMORY, Pool, Stream, WAVE, WAVE_MEMORY};
use crate::rng::Rng;
use std::collections::BTreeMap;

/// The most writes of a FILL or COPY that is made of a master's.
const LONGEST: u32 = 4096;

/// Which operations are used.
#[derive(Clone, Copy, Debug, PartialEq, Eq)]
pub enum Style {
    /// WRITEs only.
    Writes,
    /// FILLs where they fit, else WRITEs.
    Fills,
    /// FILLs, COPYs of waves and of parts of PCM pools, and WRITEs, as chance has it.
    Mixed,
}

impl Style {
    /// All styles.
    pub const ALL: [Self; 3] = [Self::Writes, Self::Fills, Self::Mixed];
}

/// The stream of version 2 that plays what a master plays: PCM memory after the opening, each other write in its order. The
/// opening's PCM bytes come in pieces, in any order; the pools stand in any order too, with one that nobody copies now and then.
pub fn pack(rng: &mut Rng, style: Style, master: &Stream) -> Stream {
    let mut packer = Packer {
        rng,
        style,
        pools: Vec::new(),
    };
    let (opening, pcm): (Vec<_>, _) = master
        .opening
        .iter()
        .map(as_write)
        .partition(|write| write.0 != PCM);
    let cores = packer.in_order(&opening);
    let pieces = packer.pcm(&pcm);
    let opening = packer.merged(cores, pieces);
    let frames = master.frames.iter().map(|frame| {
        let writes: Vec<Write> = frame.iter().map(as_write).collect();
        packer.in_order(&writes)
    });
    let frames = frames.collect();
    let mut other = Stream {
        version: 2,
        repeat: master.repeat,
        pools: packer.pools,
        opening,
        frames,
        ..Stream::default()
    };
    shuffle_pools(rng, &mut other);
    other
}

/// Target, address and value.
type Write = (u8, u32, u8);

fn as_write(operation: &Operation) -> Write {
    match *operation {
        Operation::Write {
            target,
            address,
            value,
        } => (target, address, value),
        _ => panic!("a master has WRITEs only"),
    }
}

struct Packer<'a> {
    rng: &'a mut Rng,
    style: Style,
    pools: Vec<Pool>,
}

impl Packer<'_> {
    /// Operations for these writes in this order.
    fn in_order(&mut self, writes: &[Write]) -> Vec<Operation> {
        let mut operations = Vec::new();
        let mut rest = writes;
        while !rest.is_empty() {
            let (operation, count) = self.next(rest);
            operations.push(operation);
            rest = &rest[count..];
        }
        operations
    }

    /// An operation for the first writes, and how many these are. It looks no further ahead than it may go, so that a long run
    /// takes no longer than several short ones.
    fn next(&mut self, writes: &[Write]) -> (Operation, usize) {
        let (target, address, value) = writes[0];
        let space = if target == PCM {
            PCM_MEMORY
        } else {
            WAVE_MEMORY
        };
        let plain = (Operation::write(target, address, value), 1);
        if self.style == Style::Writes || address >= space || self.rng.one_in(4) {
            return plain;
        }
        let room = (space - address).min(LONGEST) as usize;
        let ahead = &writes[..writes.len().min(room)];
        let alike = ahead.iter().take_while(|write| write.2 == value).count();
        let alike = consecutive(&ahead[..alike]);
        if self.style == Style::Fills || alike > 1 && self.rng.one_in(2) {
            let count = 1 + self.rng.index(alike);
            return (Operation::fill(target, address, count as u32, value), count);
        }
        let run = consecutive(ahead);
        let is_wave = address.is_multiple_of(WAVE) && run >= WAVE as usize;
        let (kind, count) = match (target == PCM, is_wave) {
            (true, _) => (2, 1 + self.rng.index(run)),
            (false, true) => (1, WAVE as usize),
            (false, false) => return plain,
        };
        let values: Vec<u8> = writes[..count].iter().map(|write| write.2).collect();
        let (pool, source) = self.pool(kind, values);
        (
            Operation::copy(target, address, pool, source, count as u32),
            count,
        )
    }

    /// A pool that has these bytes, and where. A PCM pool has others around them; one that is there already may do.
    fn pool(&mut self, kind: u8, mut values: Vec<u8>) -> (u16, u32) {
        if !self.rng.one_in(4) {
            let known = self
                .pools
                .iter()
                .position(|pool| pool.kind == kind && pool.payload.starts_with(&values));
            if let Some(id) = known {
                return (id as u16, 0);
            }
        }
        let mut source = 0;
        if kind == 2 {
            source = self.rng.index(4);
            let behind = self.rng.index(4);
            let room = PCM_MEMORY as usize - values.len();
            source = source.min(room);
            let front = vec![self.rng.byte(); source];
            values.splice(..0, front);
            values.resize(values.len() + behind.min(room - source), 0x55);
        }
        self.pools.push(Pool {
            kind,
            payload: values,
        });
        ((self.pools.len() - 1) as u16, source as u32)
    }

    /// Operations after which PCM memory is as these writes leave it: pieces in any order, some written over junk.
    fn pcm(&mut self, writes: &[Write]) -> Vec<Operation> {
        let memory: BTreeMap<u32, u8> = writes.iter().map(|write| (write.1, write.2)).collect();
        let last: Vec<Write> = memory
            .into_iter()
            .map(|(address, value)| (PCM, address, value))
            .collect();
        let mut pieces = Vec::new();
        let mut rest = last.as_slice();
        while !rest.is_empty() {
            let run = consecutive(rest);
            let count = if self.rng.one_in(2) {
                run
            } else {
                1 + self.rng.index(run)
            };
            let mut piece = self.in_order(&rest[..count]);
            if self.style != Style::Writes && self.rng.one_in(4) {
                let junk = Operation::fill(PCM, rest[0].1, count as u32, self.rng.byte());
                piece.insert(0, junk);
            }
            pieces.push(piece);
            rest = &rest[count..];
        }
        for index in (1..pieces.len()).rev() {
            let other = self.rng.index(index + 1);
            pieces.swap(index, other);
        }
        pieces.into_iter().flatten().collect()
    }

    /// Both lists, each in its order.
    fn merged(&mut self, cores: Vec<Operation>, pcm: Vec<Operation>) -> Vec<Operation> {
        let mut merged = Vec::with_capacity(cores.len() + pcm.len());
        let (mut cores, mut pcm) = (cores.into_iter(), pcm.into_iter());
        while cores.len() + pcm.len() > 0 {
            let from_cores = self.rng.index(cores.len() + pcm.len()) < cores.len();
            merged.extend(if from_cores { cores.next() } else { pcm.next() });
        }
        merged
    }
}

/// How many writes from the first on go to one target, upward.
fn consecutive(writes: &[Write]) -> usize {
    let (target, address, _) = writes[0];
    writes
        .iter()
        .zip(address..)
        .take_while(|(write, address)| (write.0, write.1) == (target, *address))
        .count()
}

/// Puts the pools in another order, and now and then one among them that nobody copies.
fn shuffle_pools(rng: &mut Rng, stream: &mut Stream) {
    if rng.one_in(8) {
        stream.pools.push(Pool {
            kind: 1,
            payload: vec![7; WAVE as usize],
        });
    }
    let mut order: Vec<usize> = (0..stream.pools.len()).collect();
    for index in (1..order.len()).rev() {
        order.swap(index, rng.index(index + 1));
    }
    let mut ids = vec![0; order.len()];
    for (new, old) in order.iter().enumerate() {
        ids[*old] = new as u16;
    }
    stream.pools = order
        .into_iter()
        .map(|old| std::mem::take(&mut stream.pools[old]))
        .collect();
    let operations = stream.frames.iter_mut().flatten();
    for operation in stream.opening.iter_mut().chain(operations) {
        if let Operation::Copy { pool, .. } = operation {
            *pool = ids[usize::from(*pool)];
        }
    }
}
