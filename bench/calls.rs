//! Times calls of one parameter from one memory into another: `Link::call`, and for each type loops that are written
//! for it alone, of which the fastest counts.
//!
//! Each run checks that both write the same bytes over a target that was filled with others.

mod clock;

use clock::time_of;
use std::hint::black_box;

/// The length of each memory.
const LEN: usize = 16_777_216;
/// The bytes of a small value.
const SMALL: usize = 262_144;
/// The length of the memories that grow.
const MEMORY: u32 = 1_048_576;
/// How many times each time is taken; the least counts.
const RUNS: usize = 15;
/// What a target is filled with.
const FILLING: u8 = 0xee;
/// The characters or elements that are tested before they are written.
const CHUNK: usize = 1024;

unsafe extern "C" {
    fn bench_call(
        kind: u32,
        count: u32,
        rounds: u32,
        source: *mut u8,
        source_len: usize,
        target: *mut u8,
        target_len: usize,
    ) -> bool;
    fn bench_memories(kind: u32, count: u32, size: u32, rounds: u32, len: u32, grown: bool) -> bool;
}

fn number(index: usize) -> u32 {
    (index as u32).wrapping_mul(2_654_435_761)
}

/// A number of splitmix64, in which a processor that predicts branches finds no pattern.
fn random(index: usize) -> u32 {
    let mut bits = (index as u64 + 1).wrapping_mul(0x9e37_79b9_7f4a_7c15);
    bits = (bits ^ (bits >> 30)).wrapping_mul(0xbf58_476d_1ce4_e5b9);
    bits = (bits ^ (bits >> 27)).wrapping_mul(0x94d0_49bb_1331_11eb);
    ((bits ^ (bits >> 31)) >> 32) as u32
}

// The values, each from address 0 on.

/// Writes elements, each made of its index.
fn fill_each<const N: usize>(source: &mut [u8], count: usize, element: impl Fn(usize) -> [u8; N]) {
    for (index, place) in source.as_chunks_mut().0.iter_mut().take(count).enumerate() {
        *place = element(index);
    }
}

fn fill_numbers(source: &mut [u8], count: usize) {
    fill_each(source, count, |index| number(index).to_le_bytes());
}

fn fill_bytes(source: &mut [u8], count: usize) {
    fill_numbers(source, count.div_ceil(4));
}

fn fill_longs(source: &mut [u8], count: usize) {
    fill_numbers(source, 2 * count);
}

fn fill_ascii(source: &mut [u8], count: usize) {
    fill_each(source, count, |index| [b' ' + (number(index) >> 8) as u8 % 94]);
}

/// Characters of one to four bytes in turn, ten bytes in all.
fn fill_mixed(source: &mut [u8], count: usize) {
    for (place, byte) in source.iter_mut().zip("aß€😀".bytes().cycle()).take(count) {
        *place = byte;
    }
}

fn fill_chars(source: &mut [u8], count: usize) {
    fill_each(source, count, |index| (number(index) % 0xd800).to_le_bytes());
}

fn fill_bools(source: &mut [u8], count: usize) {
    fill_each(source, count, |index| [(number(index) >> 16) as u8 % 2]);
}

/// Elements of `SIZE` bytes, of numbers, the first byte of each a random number below `CASES`.
fn fill_elements<const SIZE: usize, const CASES: u32>(source: &mut [u8], count: usize) {
    fill_numbers(source, count * SIZE / 4);
    for (index, place) in source.chunks_exact_mut(SIZE).take(count).enumerate() {
        place[0] = (random(index) % CASES) as u8;
    }
}

/// Flags of twelve labels, with no other bit.
fn fill_flags(source: &mut [u8], count: usize) {
    fill_each(source, count, |index| ((number(index) >> 16) as u16 % 4096).to_le_bytes());
}

/// `tuple<option<u8>, option<u32>>`
fn fill_maybes(source: &mut [u8], count: usize) {
    fill_elements::<12, 2>(source, count);
    for (index, place) in source.chunks_exact_mut(12).take(count).enumerate() {
        place[4] = ((random(index) >> 1) % 2) as u8;
    }
}

/// An address and a length at a place.
fn put_header(memory: &mut [u8], place: usize, at: usize, len: usize) {
    memory[place..place + 4].copy_from_slice(&(at as u32).to_le_bytes());
    memory[place + 4..place + 8].copy_from_slice(&(len as u32).to_le_bytes());
}

/// Texts behind the block of the elements of so many bytes, which end with the headers of the texts.
fn fill_parts(source: &mut [u8], count: usize, size: usize, len: impl Fn(usize) -> usize) {
    let mut at = count * size;
    for index in 0..count {
        put_header(source, (index + 1) * size - 8, at, len(index));
        fill_ascii(&mut source[at..], len(index));
        at += len(index);
    }
}

/// How many bytes the text of an element has: four to eleven.
fn text_len(index: usize) -> usize {
    4 + (number(index) >> 16) as usize % 8
}

fn fill_texts(source: &mut [u8], count: usize) {
    fill_parts(source, count, 8, text_len);
}

fn fill_lists(source: &mut [u8], count: usize) {
    fill_parts(source, count, 8, |_| 16);
}

/// `tuple<u32, string>`, the texts behind their block.
fn fill_named(source: &mut [u8], count: usize) {
    fill_parts(source, count, 12, text_len);
    for (index, place) in source.chunks_exact_mut(12).take(count).enumerate() {
        place[..4].copy_from_slice(&number(index).to_le_bytes());
    }
}

/// `tuple<list<u8>, list<u16>>`: sixteen bytes and eight numbers.
fn fill_both(source: &mut [u8], count: usize) {
    for part in 0..2 * count {
        let at = (count + part) * 16;
        put_header(source, part * 8, at, if part % 2 == 0 { 16 } else { 8 });
        fill_bytes(&mut source[at..], 16);
    }
}

/// The header of a text behind it, at address 0.
fn fill_answer(source: &mut [u8], count: usize) {
    put_header(source, 0, 8, count);
    fill_ascii(&mut source[8..], count);
}

// The loops that are written for one type. Each tells whether the value passed its tests.

/// Copies elements one by one, until one doesn't pass.
#[inline(always)]
fn each<const N: usize>(
    source: &[u8],
    count: usize,
    target: &mut [u8],
    copy: impl Fn(&[u8; N], &mut [u8; N]) -> bool,
) -> bool {
    let source = &source.as_chunks().0[..count];
    let target = &mut target.as_chunks_mut().0[..count];
    for (place, copied) in source.iter().zip(target) {
        if !copy(place, copied) {
            return false;
        }
    }
    true
}

/// Takes elements in chunks, until one doesn't pass.
#[inline(always)]
fn in_chunks<const N: usize>(
    source: &[u8],
    count: usize,
    target: &mut [u8],
    copy: impl Fn(&[[u8; N]], &mut [[u8; N]]) -> bool,
) -> bool {
    let source = &source.as_chunks().0[..count];
    let target = &mut target.as_chunks_mut().0[..count];
    for (places, copies) in source.chunks(CHUNK).zip(target.chunks_mut(CHUNK)) {
        if !copy(places, copies) {
            return false;
        }
    }
    true
}

/// The same without a branch for each element: `copy` takes one, and tells how many of its cases are none.
#[inline(always)]
fn by_choice<const N: usize>(
    source: &[u8],
    count: usize,
    target: &mut [u8],
    copy: impl Fn(&[u8; N], &mut [u8; N]) -> u32,
) -> bool {
    in_chunks(source, count, target, |places, copies| {
        let mut bad = 0;
        for (place, copied) in places.iter().zip(copies) {
            bad += copy(place, copied);
        }
        bad == 0
    })
}

fn copy(source: &[u8], target: &mut [u8], len: usize) -> bool {
    target[..len].copy_from_slice(&source[..len]);
    true
}

/// Elements of `SIZE` bytes that have no test.
fn copy_elements<const SIZE: usize>(source: &[u8], count: usize, target: &mut [u8]) -> bool {
    copy(source, target, SIZE * count)
}

fn copy_text(source: &[u8], count: usize, target: &mut [u8]) -> bool {
    str::from_utf8(&source[..count]).is_ok() && copy(source, target, count)
}

fn is_char(place: &[u8; 4]) -> bool {
    let code = u32::from_le_bytes(*place);
    code < 0xd800 || (0xdfff < code && code < 0x11_0000)
}

fn copy_chars(source: &[u8], count: usize, target: &mut [u8]) -> bool {
    in_chunks(source, count, target, |places, copies| {
        let are_chars = places.iter().filter(|place| !is_char(place)).count() == 0;
        if are_chars {
            copies.copy_from_slice(places);
        }
        are_chars
    })
}

fn copy_chars_one_by_one(source: &[u8], count: usize, target: &mut [u8]) -> bool {
    each(source, count, target, |place, copied| {
        *copied = *place;
        is_char(place)
    })
}

fn copy_bools(source: &[u8], count: usize, target: &mut [u8]) -> bool {
    each(source, count, target, |place: &[u8; 1], copied| {
        copied[0] = u8::from(place[0] != 0);
        true
    })
}

fn copy_rows(source: &[u8], count: usize, target: &mut [u8]) -> bool {
    each(source, count, target, |place: &[u8; 12], copied| {
        copied[0] = place[0];
        copied[4..8].copy_from_slice(&place[4..8]);
        copied[8..10].copy_from_slice(&place[8..10]);
        true
    })
}

fn copy_options(source: &[u8], count: usize, target: &mut [u8]) -> bool {
    let source = &source.as_chunks::<8>().0[..count];
    let target = &mut target.as_chunks_mut::<8>().0[..count];
    for (place, copied) in source.iter().zip(target) {
        match place[0] {
            0 => copied[0] = 0,
            1 => {
                copied[0] = 1;
                copied[4..8].copy_from_slice(&place[4..8]);
            }
            _ => return false,
        }
    }
    true
}

/// The bytes of an element that a mask takes, and the others as they were.
#[inline(always)]
fn blend(place: &[u8; 8], copied: &mut [u8; 8], mask: u64) {
    let word = u64::from_le_bytes(*place) & mask | u64::from_le_bytes(*copied) & !mask;
    *copied = word.to_le_bytes();
}

/// Without a branch on the case: each case has its mask.
fn copy_by_masks(source: &[u8], count: usize, target: &mut [u8], masks: &[u64]) -> bool {
    in_chunks(source, count, target, |places: &[[u8; 8]], copies| {
        if places.iter().any(|place| place[0] as usize >= masks.len()) {
            return false;
        }
        for (place, copied) in places.iter().zip(copies) {
            blend(place, copied, masks[place[0] as usize]);
        }
        true
    })
}

const NONE: u64 = 0xff;
const WORD: u64 = 0xffff_ffff_0000_00ff;
const BYTE: u64 = 0x0000_00ff_0000_00ff;

fn copy_options_by_masks(source: &[u8], count: usize, target: &mut [u8]) -> bool {
    copy_by_masks(source, count, target, &[NONE, WORD])
}

fn copy_options_by_choice(source: &[u8], count: usize, target: &mut [u8]) -> bool {
    by_choice(source, count, target, |place, copied| {
        blend(place, copied, if place[0] == 0 { NONE } else { WORD });
        u32::from(place[0] > 1)
    })
}

fn copy_choices(source: &[u8], count: usize, target: &mut [u8]) -> bool {
    each(source, count, target, |place: &[u8; 8], copied| {
        match place[0] {
            0 => copied[4..8].copy_from_slice(&place[4..8]),
            1 => copied[4] = place[4],
            2 => {}
            _ => return false,
        }
        copied[0] = place[0];
        true
    })
}

fn copy_choices_by_masks(source: &[u8], count: usize, target: &mut [u8]) -> bool {
    copy_by_masks(source, count, target, &[WORD, BYTE, NONE])
}

fn copy_maybes(source: &[u8], count: usize, target: &mut [u8]) -> bool {
    each(source, count, target, |place: &[u8; 12], copied| {
        copied[0] = place[0];
        copied[4] = place[4];
        if place[0] == 1 {
            copied[1] = place[1];
        }
        if place[4] == 1 {
            copied[8..12].copy_from_slice(&place[8..12]);
        }
        place[0] < 2 && place[4] < 2
    })
}

fn copy_maybes_by_choice(source: &[u8], count: usize, target: &mut [u8]) -> bool {
    by_choice(source, count, target, |place: &[u8; 12], copied| {
        copied[0] = place[0];
        copied[1] = if place[0] == 0 { copied[1] } else { place[1] };
        copied[4] = place[4];
        for index in 8..12 {
            copied[index] = if place[4] == 0 { copied[index] } else { place[index] };
        }
        u32::from(place[0] > 1) + u32::from(place[4] > 1)
    })
}

fn copy_figures(source: &[u8], count: usize, target: &mut [u8]) -> bool {
    let source = &source.as_chunks::<12>().0[..count];
    let target = &mut target.as_chunks_mut::<12>().0[..count];
    for (place, copied) in source.iter().zip(target) {
        match place[0] {
            0 => copied[4..12].copy_from_slice(&place[4..12]),
            1 => copied[4..8].copy_from_slice(&place[4..8]),
            2 => {}
            _ => return false,
        }
        copied[0] = place[0];
    }
    true
}

fn copy_figures_by_choice(source: &[u8], count: usize, target: &mut [u8]) -> bool {
    let number =
        |place: &[u8; 12], at: usize| u32::from_le_bytes([place[at], place[at + 1], place[at + 2], place[at + 3]]);
    by_choice(source, count, target, |place, copied| {
        copied[0] = place[0];
        for (at, is_there) in [(4, place[0] < 2), (8, place[0] == 0)] {
            let (old, new) = (number(copied, at), number(place, at));
            let word = if is_there { new } else { old };
            copied[at..at + 4].copy_from_slice(&word.to_le_bytes());
        }
        u32::from(place[0] > 2)
    })
}

/// Flags of twelve labels.
fn copy_flags(source: &[u8], count: usize, target: &mut [u8]) -> bool {
    each(source, count, target, |place, copied| {
        *copied = (u16::from_le_bytes(*place) & 0x0fff).to_le_bytes();
        true
    })
}

/// The part whose header is at an address, of elements of so many bytes, into a block from `top` on: where that ends.
#[inline(always)]
fn copy_part(
    source: &[u8],
    (at, size): (usize, usize),
    target: &mut [u8],
    top: usize,
    is_good: impl Fn(&[u8]) -> bool,
) -> Option<usize> {
    let [a, b, c, d, e, f, g, h] = source.get(at..at + 8)? else {
        return None;
    };
    let start = u32::from_le_bytes([*a, *b, *c, *d]) as usize;
    let count = u32::from_le_bytes([*e, *f, *g, *h]) as usize;
    let len = size * count;
    let part = source.get(start..start + len)?;
    if !start.is_multiple_of(size) || !is_good(part) {
        return None;
    }
    let top = top.next_multiple_of(size);
    target.get_mut(top..top + len)?.copy_from_slice(part);
    put_header(target, at, top, count);
    Some(top + len)
}

/// Each part gets a block of its own behind the block of the elements of so many bytes, which end with its header.
#[inline(always)]
fn copy_parts(
    source: &[u8],
    (count, size): (usize, usize),
    target: &mut [u8],
    is_good: impl Fn(&[u8]) -> bool,
) -> bool {
    let mut top = size * count;
    for at in (0..size * count).step_by(size) {
        target[at..at + size - 8].copy_from_slice(&source[at..at + size - 8]);
        let Some(end) = copy_part(source, (at + size - 8, 1), target, top, &is_good) else {
            return false;
        };
        top = end;
    }
    true
}

fn is_text(part: &[u8]) -> bool {
    part.is_ascii() || str::from_utf8(part).is_ok()
}

fn copy_texts(source: &[u8], count: usize, target: &mut [u8]) -> bool {
    copy_parts(source, (count, 8), target, |part| str::from_utf8(part).is_ok())
}

fn copy_ascii_first(source: &[u8], count: usize, target: &mut [u8]) -> bool {
    copy_parts(source, (count, 8), target, is_text)
}

fn copy_lists(source: &[u8], count: usize, target: &mut [u8]) -> bool {
    copy_parts(source, (count, 8), target, |_| true)
}

fn copy_named(source: &[u8], count: usize, target: &mut [u8]) -> bool {
    copy_parts(source, (count, 12), target, is_text)
}

fn copy_both(source: &[u8], count: usize, target: &mut [u8]) -> bool {
    let mut top = 16 * count;
    for at in (0..16 * count).step_by(16) {
        let end = copy_part(source, (at, 1), target, top, |_| true);
        let Some(end) = end.and_then(|end| copy_part(source, (at + 8, 2), target, end, |_| true)) else {
            return false;
        };
        top = end;
    }
    true
}

// What is measured.

type Loop = fn(&[u8], usize, &mut [u8]) -> bool;

/// A type of the one parameter.
struct Shape {
    name: &'static str,
    /// Its function's number in the library.
    kind: u32,
    /// The bytes that an element takes, with those of its own block.
    size: usize,
    fill: fn(&mut [u8], usize),
    loops: &'static [Loop],
}

impl Shape {
    const fn new(
        name: &'static str,
        kind: u32,
        size: usize,
        fill: fn(&mut [u8], usize),
        loops: &'static [Loop],
    ) -> Shape {
        Shape { name, kind, size, fill, loops }
    }
}

const SHAPES: [Shape; 19] = [
    Shape::new("`list<u8>`", 1, 1, fill_bytes, &[copy_elements::<1>]),
    Shape::new("`list<u32>`", 2, 4, fill_numbers, &[copy_elements::<4>]),
    Shape::new("`list<u64>`", 3, 8, fill_longs, &[copy_elements::<8>]),
    Shape::new("`string`, ASCII", 0, 1, fill_ascii, &[copy_text]),
    Shape::new(
        "`string`, mixed",
        0,
        10,
        |source, count| fill_mixed(source, 10 * count),
        &[|source, count, target| copy_text(source, 10 * count, target)],
    ),
    Shape::new("`list<char>`", 4, 4, fill_chars, &[copy_chars, copy_chars_one_by_one]),
    Shape::new("`list<bool>`", 5, 1, fill_bools, &[copy_bools]),
    Shape::new("`list<row>`", 6, 12, fill_elements::<12, 256>, &[copy_rows]),
    Shape::new(
        "`list<option<u32>>`",
        7,
        8,
        fill_elements::<8, 2>,
        &[copy_options, copy_options_by_masks, copy_options_by_choice],
    ),
    Shape::new("`list<choice>`", 8, 8, fill_elements::<8, 3>, &[copy_choices, copy_choices_by_masks]),
    Shape::new("`list<tuple<u32, u32>>`", 9, 8, fill_longs, &[copy_elements::<8>]),
    Shape::new("`list<string>`", 10, 19, fill_texts, &[copy_texts, copy_ascii_first]),
    Shape::new("`list<list<u8>>`", 11, 24, fill_lists, &[copy_lists]),
    Shape::new("`list<maybes>`", 12, 12, fill_maybes, &[copy_maybes, copy_maybes_by_choice]),
    Shape::new("`list<named>`", 13, 23, fill_named, &[copy_named]),
    Shape::new("`list<figure>`", 14, 12, fill_elements::<12, 3>, &[copy_figures, copy_figures_by_choice]),
    Shape::new("`list<marks>`", 15, 2, fill_flags, &[copy_flags]),
    Shape::new("`list<both>`", 16, 48, fill_both, &[copy_both]),
    Shape::new("`list<deep>`", 17, 4, fill_numbers, &[copy_elements::<4>]),
];

/// What a short call is of, its function's number, and what it reads.
const SHORT: [(&str, u32, fn(&mut [u8], usize)); 8] = [
    ("a `u32`", 18, fill_bytes),
    ("a string of five bytes", 0, fill_ascii),
    ("twenty `u32`, which spill", 19, fill_bytes),
    ("no parameter that answers a `u32`", 20, fill_bytes),
    ("no parameter that answers such a string", 21, fill_answer),
    ("an enum", 22, fill_bytes),
    ("flags", 23, fill_bytes),
    ("a `tuple<u32, u32>`", 24, fill_bytes),
];

/// The lists that are called with over memories that grew: of bytes, of numbers of 32 bits, of rows and of pairs.
const GROWN: [u32; 4] = [1, 2, 6, 9];

/// Calls the export. A string's count is one of bytes.
fn call(shape: &Shape, count: usize, rounds: u32, source: &mut [u8], target: &mut [u8]) {
    let units = if shape.kind == 0 { shape.size } else { 1 };
    // SAFETY: the export requires nothing of its arguments, and the slices are borrowed for the call.
    let done = unsafe {
        bench_call(
            shape.kind,
            (count * units) as u32,
            rounds,
            source.as_mut_ptr(),
            source.len(),
            target.as_mut_ptr(),
            target.len(),
        )
    };
    assert!(done, "the library refuses {}", shape.name);
}

/// Makes so many rounds of a loop.
fn repeat(one: Loop, count: usize, rounds: u32, source: &[u8], target: &mut [u8]) {
    for _ in 0..rounds {
        assert!(one(black_box(source), black_box(count), black_box(target)));
    }
}

/// The nanoseconds of a call and of the fastest loop: all in turn, over the same two buffers. What the library takes
/// for a call of no rounds is taken off.
fn times(shape: &Shape, count: usize, rounds: u32, source: &mut [u8], target: &mut [u8]) -> (f64, f64) {
    let (mut none, mut ours, mut native) = (f64::INFINITY, f64::INFINITY, f64::INFINITY);
    for _ in 0..RUNS {
        none = none.min(time_of(|| call(shape, count, 0, source, target)));
        ours = ours.min(time_of(|| call(shape, count, rounds, source, target)));
        for one in shape.loops {
            native = native.min(time_of(|| repeat(*one, count, rounds, source, target)));
        }
    }
    let rounds = f64::from(rounds);
    ((ours - none) / rounds, native / rounds)
}

/// Ends the run where a loop writes other bytes than a call.
fn assert_same_bytes(shape: &Shape, count: usize, source: &mut [u8], target: &mut [u8]) {
    target.fill(FILLING);
    call(shape, count, 1, source, target);
    let called = target.to_vec();
    for one in shape.loops {
        target.fill(FILLING);
        repeat(*one, count, 1, source, target);
        assert!(called == target, "other bytes: {}", shape.name);
    }
}

/// One row of the table: a value of so many bytes.
fn row(shape: &Shape, bytes: usize) -> String {
    let count = bytes / shape.size;
    let rounds = if bytes < LEN { 1024 } else { 8 };
    let mut source = vec![FILLING; LEN];
    (shape.fill)(&mut source, count);
    let mut target = vec![FILLING; LEN];
    assert_same_bytes(shape, count, &mut source, &mut target);
    let (ours, native) = times(shape, count, rounds, &mut source, &mut target);
    let each = count as f64;
    format!("| {} | {} | {:.3} | {:.3} | {:.2} |", shape.name, count, ours / each, native / each, ours / native)
}

/// The nanoseconds of a short call, of a number, of numbers or of a string of five bytes.
fn time_of_short_call(name: &'static str, kind: u32, fill: fn(&mut [u8], usize)) -> f64 {
    let shape = Shape::new(name, kind, 1, fill, &[]);
    let count = 5;
    let mut source = vec![0; 128];
    (shape.fill)(&mut source, count);
    let mut target = vec![FILLING; 128];
    times(&shape, count, 100_000, &mut source, &mut target).0
}

/// Calls the other export, with a list of zeros.
fn call_over_memories(kind: u32, count: u32, size: u32, rounds: u32, grown: bool) {
    // SAFETY: the export requires nothing of its arguments.
    let done = unsafe { bench_memories(kind, count, size, rounds, MEMORY, grown) };
    assert!(done, "the library refuses list {kind}");
}

/// The nanoseconds of a call over memories of one length: made so long, and grown to it. Both in turn; what the library
/// takes to make them is taken off.
fn times_over_memories(kind: u32, count: u32, size: u32) -> [f64; 2] {
    let rounds = 1024;
    let mut least = [[f64::INFINITY; 2]; 2];
    for _ in 0..RUNS {
        for grown in [false, true] {
            for (place, rounds) in least[usize::from(grown)].iter_mut().zip([0, rounds]) {
                let time = time_of(|| call_over_memories(kind, count, size, rounds, grown));
                *place = place.min(time);
            }
        }
    }
    least.map(|[none, some]| (some - none) / f64::from(rounds))
}

/// One row of the table of memories that grew: a list of 256 KiB.
fn row_over_memories(shape: &Shape) -> String {
    let count = SMALL / shape.size;
    let [made, grown] = times_over_memories(shape.kind, count as u32, (count * shape.size) as u32);
    let each = count as f64;
    format!("| {} | {} | {:.3} | {:.3} | {:.2} |", shape.name, count, made / each, grown / each, grown / made)
}

/// The rows of the types whose names have this word.
fn print_rows(word: &str) {
    println!("| type | elements | witcall | loop | witcall / loop |");
    println!("|---|---|---|---|---|");
    for shape in SHAPES.iter().filter(|shape| shape.name.contains(word)) {
        for bytes in [SMALL, LEN] {
            println!("{}", row(shape, bytes));
        }
    }
    println!();
}

fn print_rows_over_memories() {
    println!("| type | elements | made | grown | grown / made |");
    println!("|---|---|---|---|---|");
    for shape in SHAPES.iter().filter(|shape| GROWN.contains(&shape.kind)) {
        println!("{}", row_over_memories(shape));
    }
    println!();
}

fn print_short_calls() {
    println!("| a call of | nanoseconds |");
    println!("|---|---|");
    for (name, kind, fill) in SHORT {
        println!("| {name} | {:.0} |", time_of_short_call(name, kind, fill));
    }
}

/// Prints all tables, or, by the word `short`, only the times of short calls, or the rows of the types whose names have
/// the word.
fn main() {
    match std::env::args().nth(1).as_deref() {
        Some("short") => print_short_calls(),
        Some(word) => print_rows(word),
        None => {
            print_rows("");
            print_rows_over_memories();
            print_short_calls();
        }
    }
}
