//! Runs a script of tests/port_calls.py on the archive from Rust: what tests/port/calls.c does, with no code in common.
//!     calls SCRIPT     writes `N calls`; or the first call that differs, counted from 0, and what differs, and ends with 1
//! It has no Rust start: the start of the standard library reads /proc/self/maps, which the kit's emulator cannot give.
#![no_main]

use std::process::exit;

#[repr(C)]
#[derive(Clone, Copy, PartialEq)]
struct Refusal {
    number: u8,
    place: usize,
}

#[repr(C)]
struct Queue {
    count: u32,
    cells: [u32; 32],
}

#[repr(C)]
struct Task {
    release: u32,
    work: u32,
    period: u32,
    offset: u32,
}

#[repr(C)]
struct Server {
    kind: u32,
    count: u32,
    period: u32,
    budget: u32,
    tasks: [Task; 8],
}

#[repr(C)]
struct Table {
    count: u32,
    servers: [Server; 8],
}

#[repr(C)]
struct Load {
    pending: u32,
    lost: u32,
}

#[repr(C)]
struct Entry {
    budget: u32,
    loads: [Load; 8],
    arrivals: Queue,
}

#[repr(C)]
struct State {
    table: Table,
    refills: Queue,
    entries: [Entry; 8],
}

#[repr(C)]
struct TickAnswer {
    choice: u32,
    server: u32,
    task: u32,
    handled: u32,
}

#[repr(C)]
struct Message {
    kind: u32,
    first: u32,
    second: u32,
}

const _: () = assert!(std::mem::size_of::<Queue>() == 132 && std::mem::size_of::<Table>() == 1156 && std::mem::size_of::<State>() == 2888);
const _: () = assert!(std::mem::size_of::<Refusal>() == 16 && std::mem::size_of::<TickAnswer>() == 16 && std::mem::size_of::<Message>() == 12);

#[link(name = "port", kind = "static")]
extern "C" {
    fn ribascenzo_queue_empty(q: *mut Queue);
    fn ribascenzo_queue_sound(q: *const Queue) -> bool;
    fn ribascenzo_queue_insert(q: *mut Queue, id: u8, delay: u32) -> Refusal;
    fn ribascenzo_queue_remove(q: *mut Queue, id: u8) -> Refusal;
    fn ribascenzo_queue_time_left(q: *const Queue, id: u8, distance: *mut u32) -> Refusal;
    fn ribascenzo_queue_clock(q: *mut Queue) -> Refusal;
    fn ribascenzo_queue_take(q: *mut Queue, id: *mut u8) -> Refusal;
    fn ribascenzo_queue_push_back(q: *mut Queue) -> Refusal;
    fn ribascenzo_fresh(s: *mut State, setup: *const u8, length: usize) -> Refusal;
    fn ribascenzo_sound(s: *const State) -> bool;
    fn ribascenzo_tick(s: *mut State, answer: *mut TickAnswer) -> Refusal;
    fn ribascenzo_arrive(s: *mut State, server: u8, task: u8, lost: *mut u32) -> Refusal;
    fn ribascenzo_budget(s: *const State, server: u8, budget: *mut u32) -> Refusal;
    fn ribascenzo_load(s: *const State, server: u8, task: u8, load: *mut Load) -> Refusal;
    fn ribascenzo_setup_read(setup: *const u8, length: usize, table: *mut Table) -> Refusal;
    fn ribascenzo_setup_write(table: *const Table, out: *mut u8, length: usize, written: *mut u32) -> Refusal;
    fn ribascenzo_message_read(bytes: *const u8, length: usize, message: *mut Message) -> Refusal;
    fn ribascenzo_message_write(kind: u8, a: u8, b: u8, out: *mut u8, length: usize) -> Refusal;
}

fn fail(why: &str) -> ! {
    eprintln!("calls: {why}");
    exit(2)
}

/// The words of a script that are still to be read.
struct Script {
    words: Vec<u32>,
    at: usize,
}

impl Script {
    fn read(path: &str) -> Script {
        let bytes = std::fs::read(path).unwrap_or_else(|_| fail("the script cannot be read"));
        let words = bytes.chunks_exact(4).map(|b| u32::from_le_bytes([b[0], b[1], b[2], b[3]])).collect();
        Script { words, at: 0 }
    }

    fn next(&mut self) -> u32 {
        self.at += 1;
        self.words.get(self.at - 1).copied().unwrap_or_else(|| fail("the script ends early"))
    }

    fn several(&mut self, count: usize) -> Vec<u32> {
        (0..count).map(|_| self.next()).collect()
    }

    /// A place, a number of bytes and the bytes.
    fn block(&mut self) -> (usize, Vec<u8>) {
        let (at, length) = (self.next() as usize, self.next() as usize);
        let words = self.several((length + 3) / 4);
        let bytes = words.iter().flat_map(|word| word.to_le_bytes()).take(length).collect();
        (at, bytes)
    }
}

/// The memory in which all lent memory lies, at an address that 16 divides.
struct Memory {
    words: Vec<u128>,
    size: usize,
}

impl Memory {
    fn bytes(&self) -> &[u8] {
        // SAFETY: the vector has at least as many bytes, and every bit pattern is a byte.
        unsafe { std::slice::from_raw_parts(self.words.as_ptr().cast(), self.size) }
    }

    fn bytes_mut(&mut self) -> &mut [u8] {
        // SAFETY: as above.
        unsafe { std::slice::from_raw_parts_mut(self.words.as_mut_ptr().cast(), self.size) }
    }

    fn place<T>(&mut self, at: u32) -> *mut T {
        let pointer = self.words.as_mut_ptr().cast::<u8>().wrapping_add(at as usize).cast::<T>();
        if at as usize > self.size || pointer as usize % std::mem::align_of::<T>() != 0 {
            fail("a place of the script is outside the arena or not aligned");
        }
        pointer
    }
}

/// The memory, and what is due there.
struct Arena {
    memory: Memory,
    due: Vec<u8>,
}

impl Arena {
    fn new(size: usize) -> Arena {
        let due: Vec<u8> = (0..size).map(|i| (i * 37 + 11) as u8).collect();
        let mut memory = Memory { words: vec![0; (size + 15) / 16], size };
        memory.bytes_mut().copy_from_slice(&due);
        Arena { memory, due }
    }

    fn put(&mut self, (at, bytes): (usize, Vec<u8>)) {
        self.memory.bytes_mut()[at..at + bytes.len()].copy_from_slice(&bytes);
        self.expect((at, bytes));
    }

    fn expect(&mut self, (at, bytes): (usize, Vec<u8>)) {
        self.due[at..at + bytes.len()].copy_from_slice(&bytes);
    }
}

fn said(yes: bool) -> Refusal {
    Refusal { number: yes as u8, place: 0 }
}

/// The calls in the order of tests/port_calls.py.
fn call(m: &mut Memory, which: u32, a: &[u32]) -> Refusal {
    let byte = |k: usize| a[k] as u8;
    // SAFETY: the script gives places of memory that is long enough, aligned, and apart from each other.
    unsafe {
        match which {
            0 => {
                ribascenzo_queue_empty(m.place(a[0]));
                said(false)
            }
            1 => said(ribascenzo_queue_sound(m.place(a[0]))),
            2 => ribascenzo_queue_insert(m.place(a[0]), byte(1), a[2]),
            3 => ribascenzo_queue_remove(m.place(a[0]), byte(1)),
            4 => ribascenzo_queue_time_left(m.place(a[0]), byte(1), m.place(a[2])),
            5 => ribascenzo_queue_clock(m.place(a[0])),
            6 => ribascenzo_queue_take(m.place(a[0]), m.place(a[1])),
            7 => ribascenzo_queue_push_back(m.place(a[0])),
            8 => ribascenzo_fresh(m.place(a[0]), m.place(a[1]), a[2] as usize),
            9 => said(ribascenzo_sound(m.place(a[0]))),
            10 => ribascenzo_tick(m.place(a[0]), m.place(a[1])),
            11 => ribascenzo_arrive(m.place(a[0]), byte(1), byte(2), m.place(a[3])),
            12 => ribascenzo_budget(m.place(a[0]), byte(1), m.place(a[2])),
            13 => ribascenzo_load(m.place(a[0]), byte(1), byte(2), m.place(a[3])),
            14 => ribascenzo_setup_read(m.place(a[0]), a[1] as usize, m.place(a[2])),
            15 => ribascenzo_setup_write(m.place(a[0]), m.place(a[1]), a[2] as usize, m.place(a[3])),
            16 => ribascenzo_message_read(m.place(a[0]), a[1] as usize, m.place(a[2])),
            17 => ribascenzo_message_write(byte(0), byte(1), byte(2), m.place(a[3]), a[4] as usize),
            _ => fail("the script has a call that there is not"),
        }
    }
}

/// What differs, for tests/port.py to explain.
fn difference(arena: &Arena, calls: u64, answer: Refusal, due: Refusal) -> Option<String> {
    if answer != due {
        return Some(format!("call {calls} answers {} at {}, due is {} at {}", answer.number, answer.place, due.number, due.place));
    }
    let there = arena.memory.bytes();
    if there == &arena.due[..] {
        return None;
    }
    let i = there.iter().zip(&arena.due).position(|(is, due)| is != due)?;
    Some(format!("call {calls} leaves byte {i} of the arena as {}, due is {}", there[i], arena.due[i]))
}

fn run(path: &str) -> i32 {
    let mut script = Script::read(path);
    let mut arena = Arena::new(script.next() as usize);
    let mut calls = 0;
    loop {
        match script.next() {
            0 => break,
            1 => arena.put(script.block()),
            2 => {
                let words = script.several(8);
                for _ in 0..script.next() {
                    arena.expect(script.block());
                }
                let answer = call(&mut arena.memory, words[0], &words[1..6]);
                let due = Refusal { number: words[6] as u8, place: words[7] as usize };
                if let Some(line) = difference(&arena, calls, answer, due) {
                    println!("{line}");
                    return 1;
                }
                calls += 1;
            }
            _ => fail("the script has a record that there is not"),
        }
    }
    println!("{calls} calls");
    0
}

#[no_mangle]
pub extern "C" fn main(_words: i32, _word: *const *const u8) -> i32 {
    let words: Vec<String> = std::env::args().collect();
    match words.as_slice() {
        [_, path] => run(path),
        _ => fail("usage: calls SCRIPT"),
    }
}
