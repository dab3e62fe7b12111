// A Rust program over the static library: two threads queue, and each one's items run in its order.
use std::alloc::{Layout, alloc, dealloc};

extern "C" {
    fn wq_c_seat_size() -> usize;
    fn wq_c_seat_align() -> usize;
    fn wq_c_init(at: *mut u8);
    fn wq_c_build(at: *mut u8, items: u32, barriers: u32, senders: u32) -> u64;
    fn wq_c_hand_out(at: *mut u8, to: *mut u8) -> u64;
    fn wq_c_release(at: *mut u8) -> u64;
    fn wq_c_queue(at: *mut u8, item: u32, tries: u32) -> u64;
    fn wq_c_number(at: *mut u8) -> u64;
    fn wq_c_take(at: *mut u8) -> u64;
    fn wq_c_begin(at: *mut u8) -> u64;
    fn wq_c_end(at: *mut u8) -> u64;
    fn wq_c_close(at: *mut u8) -> u64;
}

const NONE_WAITS: u32 = 74;

/// A seat on the heap, which one call at a time is in since each takes it by `&mut`.
struct Seat(*mut u8);
unsafe impl Send for Seat {}

impl Seat {
    fn layout() -> Layout {
        Layout::from_size_align(unsafe { wq_c_seat_size() }, 128).expect("a layout")
    }
    fn vacant() -> Seat {
        assert_eq!(128 % unsafe { wq_c_seat_align() }, 0);
        let at = unsafe { alloc(Seat::layout()) };
        assert!(!at.is_null());
        unsafe { wq_c_init(at) };
        Seat(at)
    }
    fn call(&mut self, call: impl FnOnce(*mut u8) -> u64) -> Result<u32, u32> {
        let word = call(self.0);
        if (word as u32) < 64 { Ok(word as u32 | (word >> 32) as u32) } else { Err(word as u32) }
    }
    /// The two seats are different ones, since each is behind a `&mut` of its own.
    fn hand_out(&mut self, to: &mut Seat) -> Result<u32, u32> {
        self.call(|at| unsafe { wq_c_hand_out(at, to.0) })
    }
}

impl Drop for Seat {
    fn drop(&mut self) {
        assert_eq!(unsafe { wq_c_release(self.0) }, 0);
        unsafe { dealloc(self.0, Seat::layout()) };
    }
}

fn main() {
    let (mut owner, mut senders) = (Seat::vacant(), vec![Seat::vacant(), Seat::vacant()]);
    owner.call(|at| unsafe { wq_c_build(at, 128, 1, 2) }).expect("a queue");
    for sender in &mut senders {
        owner.hand_out(sender).expect("a sender");
    }
    let feed = |mut seat: Seat| {
        let number = seat.call(|at| unsafe { wq_c_number(at) }).expect("a number");
        for item in number * 64..number * 64 + 64 {
            let code = seat.call(|at| unsafe { wq_c_queue(at, item, u32::MAX) }).expect("an answer");
            assert!(code & 1 == 1 && code < 8);
        }
        seat
    };
    let threads: Vec<_> = senders.drain(..).map(|seat| std::thread::spawn(move || feed(seat))).collect();
    let mut ran = Vec::new();
    while ran.len() < 128 {
        owner.call(|at| unsafe { wq_c_take(at) }).expect("a count");
        loop {
            match owner.call(|at| unsafe { wq_c_begin(at) }) {
                Ok(number) => ran.push(number),
                Err(code) => break assert_eq!(code, NONE_WAITS),
            }
            owner.call(|at| unsafe { wq_c_end(at) }).expect("an end");
        }
    }
    let senders: Vec<Seat> = threads.into_iter().map(|thread| thread.join().expect("a thread")).collect();
    for number in 0..2 {
        let own: Vec<u32> = ran.iter().copied().filter(|item| item / 64 == number).collect();
        assert_eq!(own, (number * 64..number * 64 + 64).collect::<Vec<_>>());
    }
    owner.call(|at| unsafe { wq_c_close(at) }).expect("a close");
    drop(owner);
    drop(senders);
    println!("rust: {} items ran, each sender's in its order", ran.len());
}
