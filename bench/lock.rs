// Takes and gives of a ticket lock and of std's Mutex around a count, by one thread and by four. The ticket lock waits and
// wakes as the plant's does: a thread draws a ticket where it is served at once, or after two sleeps, and a give wakes one
// thread. One line for each: the lock, the number of threads and the nanoseconds.
use std::cell::UnsafeCell;
use std::ffi::{c_int, c_long};
use std::hint::{black_box, spin_loop};
use std::ptr::null;
use std::sync::Mutex;
use std::sync::atomic::AtomicU64;
use std::sync::atomic::Ordering::SeqCst;
use std::thread;
use std::time::Instant;

const LOOKS: u32 = 8;

const SLEEPS: u32 = 2;

const FUTEX: c_long = 202;

const WAIT: c_int = 128;

const WAKE: c_int = 129;

unsafe extern "C" {
    fn syscall(number: c_long, ...) -> c_long;
}

fn park(word: &AtomicU64, expected: u32) {
    unsafe { syscall(FUTEX, word.as_ptr(), WAIT, expected, null::<u64>()) };
}

fn wake(word: &AtomicU64, most: c_int) {
    unsafe { syscall(FUTEX, word.as_ptr(), WAKE, most) };
}

#[derive(Default)]
struct Turn {
    asleep: AtomicU64,
    wakes: AtomicU64,
}

#[derive(Default)]
struct TicketLock {
    tickets: AtomicU64,
    serving: AtomicU64,
    free: AtomicU64,
    turns: [Turn; 8],
    taken: UnsafeCell<u64>,
}

// Only the thread that is served touches the count.
unsafe impl Sync for TicketLock {}

impl TicketLock {
    fn turn_of(&self, ticket: u64) -> &Turn {
        &self.turns[(ticket % 8) as usize]
    }

    fn draw(&self) -> u64 {
        let mut looks = 0;
        loop {
            let next = self.tickets.load(SeqCst);
            let slept = looks / LOOKS;
            if (slept >= SLEEPS || self.serving.load(SeqCst) == next)
                && self.tickets.compare_exchange(next, next + 1, SeqCst, SeqCst).is_ok()
            {
                if slept > 0 {
                    self.free.store(1, SeqCst);
                }
                return next;
            }
            looks += 1;
            if looks % LOOKS != 0 {
                spin_loop();
                continue;
            }
            self.free.store(1, SeqCst);
            if self.serving.load(SeqCst) != self.tickets.load(SeqCst) {
                park(&self.free, 1);
            }
        }
    }

    fn sleep_until_served(&self, ticket: u64) {
        let turn = self.turn_of(ticket);
        let wakes = turn.wakes.load(SeqCst);
        turn.asleep.fetch_add(1, SeqCst);
        if self.serving.load(SeqCst) != ticket {
            park(&turn.wakes, wakes as u32);
        }
        turn.asleep.fetch_sub(1, SeqCst);
    }

    fn take(&self) {
        let ticket = self.draw();
        let mut looks = 0;
        while self.serving.load(SeqCst) != ticket {
            looks += 1;
            if looks < LOOKS {
                spin_loop();
            } else {
                self.sleep_until_served(ticket);
            }
        }
    }

    fn give(&self) {
        let served = self.serving.fetch_add(1, SeqCst) + 1;
        if self.tickets.load(SeqCst) != served {
            let turn = self.turn_of(served);
            if turn.asleep.load(SeqCst) != 0 {
                turn.wakes.fetch_add(1, SeqCst);
                wake(&turn.wakes, c_int::MAX);
            }
        } else if self.free.load(SeqCst) != 0 && self.free.swap(0, SeqCst) != 0 {
            wake(&self.free, 1);
        }
    }

    fn add(&self) {
        self.take();
        let taken = unsafe { &mut *self.taken.get() };
        *taken = black_box(taken.wrapping_add(1));
        self.give();
    }
}

fn add_to(mutex: &Mutex<u64>) {
    let mut taken = mutex.lock().expect("no thread panics");
    *taken = black_box(taken.wrapping_add(1));
}

fn report(name: &str, threads: u64, count: u64, add: &(dyn Fn() + Sync)) {
    let start = Instant::now();
    thread::scope(|scope| {
        for _ in 1..threads {
            scope.spawn(|| (0..count).for_each(|_| add()));
        }
        (0..count).for_each(|_| add());
    });
    println!("{name} {threads} {}", start.elapsed().as_nanos());
}

fn main() {
    let count: u64 = std::env::args().nth(1).expect("a count").parse().expect("a number");
    let ticket = TicketLock::default();
    let mutex = Mutex::new(0);
    for threads in [1, 4] {
        report("ticket", threads, count, &|| ticket.add());
        report("mutex", threads, count, &|| add_to(&mutex));
    }
    assert!(ticket.taken.into_inner() == 5 * count);
    assert!(mutex.into_inner().expect("no thread panics") == 5 * count);
}
