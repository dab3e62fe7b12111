// Queues that a user of Rust would take instead, to measure bench_queue beside: items that several threads queue and one executes.
// usage: peers array|channel|mpsc|mutex|channel8|channel64|mpsc8|mpsc64 SENDERS SLICE TOTAL; prints `items N nanos T takes K least L`.
//
// With a number behind its name a channel carries the item's number and a value of so many bytes, which the sender makes of the
// number and the thread that executes reads, as `bench_queue values` does.
//
// Each item has a PENDING byte, which a sender tests and sets before it queues the item's number and the thread that executes
// clears before it runs the item, so that an item is queued once at a time, as in the queue that is measured beside. A take is a
// row of items between two looks that found nothing. A channel's receiver waits in `recv`, the others look again.
use crossbeam_queue::ArrayQueue;
use crossbeam_utils::{Backoff, CachePadded};
use std::collections::VecDeque;
use std::hint::{black_box, spin_loop};
use std::sync::atomic::{AtomicBool, AtomicU8, Ordering::SeqCst};
use std::sync::{mpsc, Mutex};
use std::time::Instant;

// What a queue does for its senders, which share it.
trait Inbox: Sync {
    fn push(&self, item: u32);
}

// What it does for the one that executes: the next item, and whether nothing was there at the first look.
trait Outbox {
    fn pop(&mut self) -> (u32, bool);
}

struct Array<'a>(&'a ArrayQueue<u32>);

impl Inbox for Array<'_> {
    fn push(&self, item: u32) {
        self.0.push(item).expect("room for each item");
    }
}

impl Outbox for Array<'_> {
    fn pop(&mut self) -> (u32, bool) {
        let backoff = Backoff::new();
        let mut was_empty = false;
        loop {
            match self.0.pop() {
                Some(item) => return (item, was_empty),
                None => was_empty = true,
            }
            backoff.spin();
        }
    }
}

struct Locked<'a>(&'a Mutex<VecDeque<u32>>);

impl Inbox for Locked<'_> {
    fn push(&self, item: u32) {
        self.0.lock().expect("no panic").push_back(item);
    }
}

impl Outbox for Locked<'_> {
    fn pop(&mut self) -> (u32, bool) {
        let backoff = Backoff::new();
        let mut was_empty = false;
        loop {
            let item = self.0.lock().expect("no panic").pop_front();
            match item {
                Some(item) => return (item, was_empty),
                None => was_empty = true,
            }
            backoff.spin();
        }
    }
}

struct Channel(crossbeam_channel::Sender<u32>);

impl Inbox for Channel {
    fn push(&self, item: u32) {
        let _ = self.0.send(item);
    }
}

impl Outbox for crossbeam_channel::Receiver<u32> {
    fn pop(&mut self) -> (u32, bool) {
        match self.try_recv() {
            Ok(item) => (item, false),
            Err(_) => (self.recv().expect("a sender"), true),
        }
    }
}

struct Mpsc(mpsc::Sender<u32>);

impl Inbox for Mpsc {
    fn push(&self, item: u32) {
        let _ = self.0.send(item);
    }
}

impl Outbox for mpsc::Receiver<u32> {
    fn pop(&mut self) -> (u32, bool) {
        match self.try_recv() {
            Ok(item) => (item, false),
            Err(_) => (self.recv().expect("a sender"), true),
        }
    }
}

// So many words of a value, and what they come to.
type Value<const WORDS: usize> = [u64; WORDS];

fn read<const WORDS: usize>((item, value): (u32, Value<WORDS>)) -> u32 {
    black_box(value[0].wrapping_add(value[WORDS - 1]));
    item
}

struct ValueChannel<const WORDS: usize>(crossbeam_channel::Sender<(u32, Value<WORDS>)>);

impl<const WORDS: usize> Inbox for ValueChannel<WORDS> {
    fn push(&self, item: u32) {
        let _ = self.0.send((item, [u64::from(item); WORDS]));
    }
}

impl<const WORDS: usize> Outbox for crossbeam_channel::Receiver<(u32, Value<WORDS>)> {
    fn pop(&mut self) -> (u32, bool) {
        match self.try_recv() {
            Ok(pair) => (read(pair), false),
            Err(_) => (read(self.recv().expect("a sender")), true),
        }
    }
}

struct ValueMpsc<const WORDS: usize>(mpsc::Sender<(u32, Value<WORDS>)>);

impl<const WORDS: usize> Inbox for ValueMpsc<WORDS> {
    fn push(&self, item: u32) {
        let _ = self.0.send((item, [u64::from(item); WORDS]));
    }
}

impl<const WORDS: usize> Outbox for mpsc::Receiver<(u32, Value<WORDS>)> {
    fn pop(&mut self) -> (u32, bool) {
        match self.try_recv() {
            Ok(pair) => (read(pair), false),
            Err(_) => (read(self.recv().expect("a sender")), true),
        }
    }
}

struct Race<'a> {
    pending: &'a [AtomicU8],
    is_over: &'a AtomicBool,
}

impl Race<'_> {
    // Queues its slice of items again and again, each once it is no longer pending, and answers how many that were.
    fn feed(&self, inbox: &dyn Inbox, from: u32, to: u32) -> u64 {
        let mut turn = 0u64;
        let mut queued = 0;
        loop {
            for item in from..to {
                while self.pending[item as usize].swap(1, SeqCst) != 0 {
                    if self.is_over.load(SeqCst) {
                        return queued;
                    }
                    for _ in 0..16 {
                        spin_loop();
                    }
                    turn += 1;
                    if turn % 64 == 0 {
                        std::thread::yield_now();
                    }
                }
                inbox.push(item);
                queued += 1;
            }
        }
    }

    // Executes so many items with a function that does nothing, and answers in how many takes.
    fn execute(&self, outbox: &mut dyn Outbox, total: u64) -> u64 {
        let mut takes = 0;
        for _ in 0..total {
            let (item, was_empty) = outbox.pop();
            takes += u64::from(was_empty);
            self.pending[item as usize].store(0, SeqCst);
        }
        takes.max(1)
    }

    // Nothing is cleared any more, so each sender comes to an item that is pending, and ends.
    fn measure(&self, inbox: &(dyn Inbox + Sync), outbox: &mut dyn Outbox, senders: u32, slice: u32, total: u64) {
        let (nanos, takes, least) = std::thread::scope(|scope| {
            let start = Instant::now();
            let threads: Vec<_> =
                (0..senders).map(|sender| scope.spawn(move || self.feed(inbox, sender * slice, (sender + 1) * slice))).collect();
            let takes = self.execute(outbox, total);
            let nanos = start.elapsed().as_nanos();
            self.is_over.store(true, SeqCst);
            let least = threads.into_iter().map(|thread| thread.join().expect("no panic")).min();
            (nanos, takes, least.unwrap_or(total))
        });
        println!("items {total} nanos {nanos} takes {takes} least {least}");
    }

    fn measure_channel<const WORDS: usize>(&self, senders: u32, slice: u32, total: u64) {
        let (sender, mut receiver) = crossbeam_channel::bounded::<(u32, Value<WORDS>)>(self.pending.len());
        self.measure(&ValueChannel(sender), &mut receiver, senders, slice, total);
    }

    fn measure_mpsc<const WORDS: usize>(&self, senders: u32, slice: u32, total: u64) {
        let (sender, mut receiver) = mpsc::channel::<(u32, Value<WORDS>)>();
        self.measure(&ValueMpsc(sender), &mut receiver, senders, slice, total);
    }
}

// The senders of a channel share one handle, as they share each other queue, where a program may give each a clone of its own.
fn main() {
    let words: Vec<String> = std::env::args().skip(1).collect();
    let numbers: Vec<u64> = words.iter().skip(1).filter_map(|word| word.parse().ok()).collect();
    // no `let .. else`: Debian 12 has rustc 1.63
    let (kind, senders, slice, total) = match (words.first(), numbers.as_slice()) {
        (Some(kind), &[senders, slice, total]) => (kind, senders as u32, slice as u32, total),
        _ => {
            eprintln!("usage: peers array|channel|mpsc|mutex|channel8|channel64|mpsc8|mpsc64 SENDERS SLICE TOTAL");
            std::process::exit(2);
        }
    };
    let count = (senders * slice) as usize;
    let pending: Vec<AtomicU8> = (0..count).map(|_| AtomicU8::new(0)).collect();
    let is_over = CachePadded::new(AtomicBool::new(false));
    let race = Race { pending: &pending, is_over: &is_over };
    match kind.as_str() {
        "array" => {
            let queue = ArrayQueue::new(count);
            race.measure(&Array(&queue), &mut Array(&queue), senders, slice, total);
        }
        "channel" => {
            let (sender, mut receiver) = crossbeam_channel::bounded(count);
            race.measure(&Channel(sender), &mut receiver, senders, slice, total);
        }
        "mpsc" => {
            let (sender, mut receiver) = mpsc::channel();
            race.measure(&Mpsc(sender), &mut receiver, senders, slice, total);
        }
        "channel8" => race.measure_channel::<1>(senders, slice, total),
        "channel64" => race.measure_channel::<8>(senders, slice, total),
        "mpsc8" => race.measure_mpsc::<1>(senders, slice, total),
        "mpsc64" => race.measure_mpsc::<8>(senders, slice, total),
        "mutex" => {
            let queue = Mutex::new(VecDeque::with_capacity(count));
            race.measure(&Locked(&queue), &mut Locked(&queue), senders, slice, total);
        }
        _ => std::process::exit(2),
    }
}
