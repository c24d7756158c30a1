//! Holding, lying inside and narrowing, of blocks in form and not.

use super::*;
use crate::model::{Bounds, FIELDS, LARGEST};

/// A block with room on both sides of every bound.
const ROOM: Block = Block([
    Bounds::new(2, 5),
    Bounds::new(3, 3),
    Bounds::new(1, 6),
    Bounds::new(4, 9),
]);

pub fn write(script: &mut Script, random: &mut Random) {
    blocks_in_form(script, random);
    held_packets(script, random);
    blocks_inside(script, random);
    narrowings(script, random);
    chains(script, random);
}

fn blocks_in_form(script: &mut Script, random: &mut Random) {
    script.group("block: the widest, and each bound moved past the other or past the largest");
    script.request('b', &[&Block::WIDEST.numbers()]);
    for (field, largest) in LARGEST.into_iter().enumerate() {
        for bounds in [
            Bounds::new(largest, largest),
            Bounds::new(1, 0),
            Bounds::new(0, largest.saturating_add(1)),
            Bounds::new(largest, u32::MAX),
        ] {
            let mut block = Block::WIDEST;
            block.0[field] = bounds;
            script.request('b', &[&block.numbers()]);
        }
    }
    script.group("block: drawn blocks");
    for _ in 0..60 {
        script.request('b', &[&drawn_block(random).numbers()]);
    }
}

fn held_packets(script: &mut Script, random: &mut Random) {
    script.group("holds: at and beside each bound");
    let low_corner = ROOM.0.map(|bounds| bounds.low);
    for field in 0..FIELDS {
        let Bounds { low, high } = ROOM.0[field];
        for number in [low - 1, low, high, high + 1] {
            let mut packet = low_corner;
            packet[field] = number;
            script.request('h', &[&ROOM.numbers(), &packet]);
        }
    }
    script.group("holds: drawn blocks and packets");
    for _ in 0..84 {
        let block = drawn_block(random);
        let mut packet = block.0.map(|bounds| drawn_member(random, bounds));
        if random.one_in(2) {
            let field = random.below(FIELDS);
            packet[field] = beside(random, packet[field]);
        }
        script.request('h', &[&block.numbers(), &packet]);
    }
}

fn blocks_inside(script: &mut Script, random: &mut Random) {
    script.group("inside: equal blocks, and one bound moved by one");
    script.request('i', &[&ROOM.numbers(), &ROOM.numbers()]);
    for place in 0..2 * FIELDS {
        for moved in [ROOM.numbers()[place] - 1, ROOM.numbers()[place] + 1] {
            let mut numbers = ROOM.numbers();
            numbers[place] = moved;
            script.request('i', &[&numbers, &ROOM.numbers()]);
        }
    }
    script.group("inside: drawn blocks");
    for _ in 0..83 {
        let outer = drawn_block(random);
        let inner = Block(outer.0.map(|bounds| {
            let low = drawn_member(random, bounds);
            Bounds::new(low, drawn_member(random, Bounds::new(low, bounds.high)))
        }));
        let mut numbers = inner.numbers();
        if random.one_in(2) {
            let place = random.below(2 * FIELDS);
            numbers[place] = beside(random, outer.numbers()[place]);
        }
        script.request('i', &[&numbers, &outer.numbers()]);
    }
}

fn narrowings(script: &mut Script, random: &mut Random) {
    for (field, largest) in LARGEST.into_iter().enumerate() {
        script.group("narrow: bounds before, at, across, inside, past and falling");
        let block = Block([Bounds::new(10, 20); FIELDS]);
        for (low, high) in [
            (3, 9),
            (3, 10),
            (12, 15),
            (10, 20),
            (0, u32::MAX),
            (20, 25),
            (21, 25),
            (16, 15),
            (20, 10),
            (largest, u32::MAX),
        ] {
            narrowing(script, field, Bounds::new(low, high), block);
        }
    }
    script.group("narrow: drawn blocks and bounds");
    for _ in 0..64 {
        let field = random.below(FIELDS);
        let mut block = drawn_block(random);
        block.0[field] = drawn_bounds(random, field);
        let bounds = drawn_bounds(random, field);
        narrowing(script, field, bounds, block);
    }
}

fn narrowing(script: &mut Script, field: usize, bounds: Bounds, block: Block) {
    let given = [field as u32 + 1, bounds.low, bounds.high];
    script.request('n', &[&given, &block.numbers()]);
}

fn chains(script: &mut Script, random: &mut Random) {
    script.group("chain: the widest block narrowed in all fields");
    script.request('c', &[&ROOM.numbers(), &Block::WIDEST.numbers()]);
    script.request('c', &[&Block::WIDEST.numbers(), &ROOM.numbers()]);
    script.group("chain: drawn blocks and bounds");
    for _ in 0..58 {
        let given = drawn_block(random);
        let block = drawn_block(random);
        script.request('c', &[&given.numbers(), &block.numbers()]);
    }
}

fn drawn_block(random: &mut Random) -> Block {
    Block(std::array::from_fn(|field| drawn_bounds(random, field)))
}

/// Small bounds mostly; now and then falling, one number only, around the field's
/// largest number or around the largest of all.
fn drawn_bounds(random: &mut Random, field: usize) -> Bounds {
    let low = random.between(0, 4);
    let high = random.between(low, 8);
    match random.below(16) {
        0 => Bounds::new(high + 1, low),
        1 => Bounds::new(high, high),
        2 => Bounds::new(low, LARGEST[field]),
        3 => {
            let low = LARGEST[field] - low;
            Bounds::new(low, LARGEST[field].saturating_add(high))
        }
        4 => Bounds::new(u32::MAX - high, u32::MAX - low),
        5 => Bounds::new(low, u32::MAX),
        _ => Bounds::new(low, high),
    }
}

/// A number within the bounds, or the low one if they fall.
fn drawn_member(random: &mut Random, bounds: Bounds) -> u32 {
    random.between(bounds.low, bounds.high.max(bounds.low))
}

/// A number a little lower or higher.
fn beside(random: &mut Random, number: u32) -> u32 {
    let step = random.between(1, 4);
    if random.one_in(2) {
        number.saturating_sub(step)
    } else {
        number.saturating_add(step)
    }
}
